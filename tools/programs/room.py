"""A folder that the programs run in, and what they are held to."""
import os
import resource
import shutil
import signal
import stat
import subprocess
import sys
import tempfile

TOP = os.path.dirname(os.path.dirname(os.path.dirname(os.path.abspath(__file__))))
TEXTS = {
    2: "assigned modulus", 3: "assigned value", 4: "assigned duplicate", 5: "graph did not peel", 6: "short pread",
    7: "g length", 8: "bad magic", 9: "bad version", 10: "g_bits", 11: "zero modulus", 14: "no room", 19: "bad list",
}
NOBODY = 65534
OLD = b"the index of last week"
# how the starters end
SAME, SOME_OTHER, REFUSED, FAILED = range(4)
BUILT = SAME
PROGRAMS = {name: os.path.join("crates", name, "out", name) for name in ("build_index", "tryall")}
PARTS = ("bin/build_index", "bin/tryall", "tools/start", "tools/run", *PROGRAMS.values())
failures = []
runs = 0


def refused(number):
    return f"refused {number} {TEXTS[number]}\n"


def missing(name):
    return f"{name}: No such file or directory\n"


def hold(what, found, expected):
    if found != expected:
        failures.append(what)
        print(f"{what}: expected {expected!r:.300}, found {found!r:.300}", file=sys.stderr)


def as_nobody():
    """Run as root, the programs run as nobody, so that a folder can be one that they may not write."""
    return ["setpriv", f"--reuid={NOBODY}", f"--regid={NOBODY}", "--clear-groups"] if os.getuid() == 0 else []


class Room:
    """A folder with the files that it holds at first, and the programs beside it."""

    def __init__(self, files, top=None):
        self.top = top or tempfile.mkdtemp()
        self.folder = os.path.join(self.top, "files")
        os.mkdir(self.folder)
        os.chmod(self.top, 0o711)
        for path in PARTS:
            copy = os.path.join(self.top, path)
            os.makedirs(os.path.dirname(copy), exist_ok=True)
            shutil.copy(os.path.join(TOP, path), copy)
            os.chmod(copy, 0o755)
        for name, data in files.items():
            self.write(name, data)
        self.own(self.folder)

    def __enter__(self):
        return self

    def __exit__(self, *_):
        os.chmod(self.folder, stat.S_IRWXU)
        shutil.rmtree(self.top)

    def path(self, name):
        return os.path.join(self.folder, name)

    def own(self, path):
        if os.getuid() == 0:
            os.chown(path, NOBODY, NOBODY, follow_symlinks=False)

    def write(self, name, data):
        with open(self.path(name), "wb") as out:
            out.write(data)
        self.own(self.path(name))

    def holds(self, name):
        if not os.path.exists(self.path(name)):
            return None
        with open(self.path(name), "rb") as data:
            return data.read()

    def left(self):
        """The files of the folder but for those that belong there."""
        return sorted(set(os.listdir(self.folder)) - {"keys.lst", "index.bdz"})

    def start(self, program, under="", limit=None, **others):
        """The starter of a program, begun: `under` a tracer, with files of at most `limit` bytes."""
        global runs
        runs += 1

        def confine():
            if limit is not None:
                signal.signal(signal.SIGXFSZ, signal.SIG_IGN)
                resource.setrlimit(resource.RLIMIT_FSIZE, (limit, limit))

        others.setdefault("stdout", subprocess.PIPE)
        return subprocess.Popen(
            as_nobody() + [os.path.join(self.top, "bin", program)], cwd=self.folder, stderr=subprocess.PIPE,
            preexec_fn=confine, restore_signals=False, env={**os.environ, "RUN_UNDER": under}, **others,
        )

    def run(self, program, **others):
        """What a program printed, what it said of the operating system, and its starter's status."""
        with self.start(program, **others) as begun:
            printed, said = begun.communicate(timeout=120)
            return (printed or b"").decode("latin-1"), said.decode("latin-1"), begun.returncode
