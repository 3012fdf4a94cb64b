"""build_index never loses an index: whatever stands beside it, fails under it or stops it, index.bdz is the old one or the whole new one."""
import os
import platform
import shutil
import stat
import subprocess
import tempfile

from images import assigned, assigned_image, pairs_of, width
from room import BUILT, FAILED, OLD, Room, hold
from tracing import can_trace, traced

PAIRS = pairs_of(100, 100)
LIST = assigned(PAIRS, 100)
NEW, _ = assigned_image(PAIRS, 100, width(100))


def replaced(what, room):
    """A run that must go well."""
    hold(f"{what}, build_index", room.run("build_index"), ("", "", BUILT))
    hold(f"{what}, index", room.holds("index.bdz"), NEW)


def not_replaced(what, room, old=OLD, **others):
    """A run under which the operating system fails before the new file has its name."""
    printed, said, status = room.run("build_index", **others)
    hold(f"{what}, printed", (printed, bool(said), status), ("", True, FAILED))
    hold(f"{what}, old index", room.holds("index.bdz"), old)
    hold(f"{what}, nothing left beside it", room.left(), [])


def names_that_are_taken():
    """What stands under a name that an earlier version wrote to is not touched."""
    with Room({"keys.lst": LIST, "index.bdz": OLD, "notes": b"mine"}) as room:
        os.symlink("notes", room.path("index.bdz.new"))
        replaced("a link to another file", room)
        hold("a link to another file, that file", room.holds("notes"), b"mine")
    with Room({"keys.lst": LIST, "index.bdz": OLD}) as room:
        os.symlink("index.bdz", room.path("index.bdz.new"))
        replaced("a link to the index", room)
    with Room({"keys.lst": LIST, "index.bdz": OLD}) as room:
        os.link(room.path("index.bdz"), room.path("index.bdz.new"))
        replaced("a hard link to the index", room)
        hold("a hard link to the index, its bytes", room.holds("index.bdz.new"), OLD)
    with Room({"keys.lst": LIST, "index.bdz": OLD}) as room:
        os.mkfifo(room.path("index.bdz.new"))
        replaced("a FIFO", room)
        hold("a FIFO, still one", stat.S_ISFIFO(os.stat(room.path("index.bdz.new")).st_mode), True)


def the_index_itself():
    with Room({"keys.lst": LIST, "notes": b"mine"}) as room:
        os.symlink("notes", room.path("index.bdz"))
        replaced("index.bdz is a link", room)
        hold("index.bdz is a link, replaced", os.path.islink(room.path("index.bdz")), False)
        hold("index.bdz is a link, not followed", room.holds("notes"), b"mine")
    with Room({"keys.lst": LIST, "index.bdz": OLD}) as room:
        os.link(room.path("index.bdz"), room.path("copy"))
        replaced("index.bdz has a second name", room)
        hold("index.bdz has a second name, its bytes", room.holds("copy"), OLD)
    with Room({"keys.lst": LIST}) as room:
        os.mkdir(room.path("index.bdz"))
        printed, said, status = room.run("build_index")
        hold("index.bdz is a folder", (printed, bool(said), status), ("", True, FAILED))
        hold("index.bdz is a folder, still one", os.listdir(room.path("index.bdz")), [])
        hold("index.bdz is a folder, nothing left", room.left(), [])
    for mask, mode in ((0o022, 0o644), (0o077, 0o600), (0, 0o666)):
        with Room({"keys.lst": LIST}) as room:
            before = os.umask(mask)
            try:
                replaced(f"umask {mask:o}", room)
            finally:
                os.umask(before)
            hold(f"umask {mask:o}, mode", stat.S_IMODE(os.stat(room.path("index.bdz")).st_mode), mode)


def runs_at_once():
    """Two and four at once: each is built, and whoever looks meanwhile sees the old index or a whole new one."""
    others = pairs_of(1000, 65536)
    lists = [(LIST, NEW), (assigned(others, 65536), assigned_image(others, 65536, 16)[0])]
    for count in (2, 4):
        with Room({"keys.lst": LIST, "index.bdz": OLD}) as room:
            before, seen = OLD, set()
            for turn in range(40):
                key_list, image = lists[turn % 2]
                room.write("keys.lst", key_list)
                begun = [room.start("build_index") for _ in range(count)]
                while any(run.poll() is None for run in begun):
                    seen.add(room.holds("index.bdz") in (before, image))
                ended = [(*run.communicate(), run.returncode) for run in begun]
                hold(f"{count} at once, turn {turn}", ended, [(b"", b"", BUILT)] * count)
                hold(f"{count} at once, turn {turn}, index", room.holds("index.bdz"), image)
                before = image
            hold(f"{count} at once, seen meanwhile", seen, {True})
            hold(f"{count} at once, nothing left", room.left(), [])


def failing_folders():
    with Room({"keys.lst": LIST, "index.bdz": OLD}) as room:
        os.chown(room.folder, os.getuid(), os.getgid())
        os.chmod(room.folder, 0o555)
        not_replaced("unwritable folder", room)
    with Room({"keys.lst": LIST, "index.bdz": OLD}) as room:
        os.chmod(room.folder, 0o300)
        printed, said, status = room.run("build_index")
        os.chmod(room.folder, 0o700)
        hold("folder that cannot be read", (printed, said, status), ("", ".: Permission denied\n", FAILED))
        hold("folder that cannot be read, old index", (room.holds("index.bdz"), room.left()), (OLD, []))
    for limit in (0, 1, 31, 32, 100):
        with Room({"keys.lst": LIST, "index.bdz": OLD}) as room:
            not_replaced(f"files of at most {limit} bytes", room, limit=limit)


def full_disk():
    """A file system of a few pages, where one can be had."""
    top = tempfile.mkdtemp()
    mounted = subprocess.run(
        ["mount", "-t", "tmpfs", "-o", "size=8k", "none", top], stdout=subprocess.DEVNULL, stderr=subprocess.DEVNULL, check=False,
    )
    if mounted.returncode != 0:
        os.rmdir(top)
        print("programs: no small file system can be had here; a full disk is tried by the limit of a file's size only")
        return
    try:
        with Room({}) as room:
            shutil.rmtree(room.folder)
            os.symlink(top, room.folder)
            os.chmod(top, 0o777)
            room.write("keys.lst", LIST)
            room.write("index.bdz", OLD)
            not_replaced("full disk", room)
            os.unlink(room.folder)
            os.mkdir(room.folder)
    finally:
        subprocess.run(["umount", top], check=True)
        os.rmdir(top)


# the calls that the program itself makes, beside those of its loader, and of the emulator where one runs it
ON_FILES = ("openat", "read", "write", "fsync", "close", "rename", "renameat", "renameat2", "getrandom")
EMULATED = platform.machine() != "x86_64"


def calls_of_a_run():
    """The system calls of a run that goes well, each with its number among those of its name. The first is the tracer's own."""
    with Room({"keys.lst": LIST, "index.bdz": OLD}) as room:
        printed, said, status, names = traced(room, "build_index")
        hold("traced", (printed, said, status, room.holds("index.bdz")), ("", "", BUILT, NEW))
    return [(name, names[:at + 1].count(name)) for at, name in enumerate(names) if at > 0]


def stopped_anywhere():
    """Stopped before each system call of a run, and so after each but the last."""
    ends = []
    for name, number in (call for call in calls_of_a_run() if not EMULATED or call[0] in ON_FILES):
        what = f"stopped before {name} {number}"
        with Room({"keys.lst": LIST, "index.bdz": OLD}) as room:
            printed, _, status, _ = traced(room, "build_index", "-e", f"inject={name}:signal=SIGKILL:when={number}")
            ends.append(room.holds("index.bdz"))
            hold(f"{what}, status", (printed, status), ("", FAILED))
            hold(f"{what}, index whole", ends[-1] in (OLD, NEW), True)
            replaced(f"{what}, then again", room)
    # the tracer has stopped runs both before and after the renaming
    hold("stopped, first old and then new", ends, [OLD] * ends.count(OLD) + [NEW] * ends.count(NEW))
    hold("stopped, some old and some new", (OLD in ends, NEW in ends), (True, True))


def failing_calls():
    """Each call on files fails once: only what is built whole has status 0, any other end is told, and nothing is left."""
    for at, (name, number) in enumerate(call for call in calls_of_a_run() if call[0] in ON_FILES):
        error = ("EIO", "ENOSPC", "EINTR")[at % 3]
        what = f"{name} {number} fails with {error}"
        with Room({"keys.lst": LIST, "index.bdz": OLD}) as room:
            _, said, status, _ = traced(room, "build_index", "-e", f"inject={name}:error={error}:when={number}")
            index = room.holds("index.bdz")
            hold(f"{what}, index whole", index in (OLD, NEW), True)
            hold(f"{what}, built and told", status == BUILT and index == NEW or status != BUILT and bool(said), True)
            # past the renaming only the folder's fsync can fail, and it is told
            hold(f"{what}, old", index == OLD or status == BUILT or said.startswith(".: "), True)
            hold(f"{what}, nothing left", room.left(), [])


def every_trap():
    for topic in (names_that_are_taken, the_index_itself, runs_at_once, failing_folders, full_disk):
        topic()
    if can_trace():
        stopped_anywhere()
        # a call of the emulator's own that fails ends it, and not the program's way
        if not EMULATED:
            failing_calls()


