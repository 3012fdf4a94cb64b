"""What a script sees: the status of the starters in bin/, and what they pass on."""
import os
import subprocess

from images import ONE, assigned, header, lines, pairs_of
from room import BUILT, FAILED, OLD, PROGRAMS, REFUSED, SAME, SOME_OTHER, Room, hold, missing, refused
from tracing import can_trace, traced

FIVE = header(b"BDZ2", 1, 1, 1, 1, 6, 3) + b"\5"
FOUR = FIVE[:-1] + b"\4"


def each_status():
    for image, same, status in ((FIVE, 1, SAME), (FOUR, 0, SOME_OTHER)):
        with Room({"keys.lst": ONE, "index.bdz": image}) as room:
            hold(f"tryall, {same} of 1", room.run("tryall"), (lines("BDZ2", 1, 1, 3, 1, same), "", status))
    # ten others end in 0 as no other does
    ten = header(b"BDZ2", 1, 0, 0, 0, 20, 5)
    with Room({"keys.lst": assigned([(i, i + 1) for i in range(10)], 20), "index.bdz": ten}) as room:
        hold("tryall, 10 other", room.run("tryall"), (lines("BDZ2", 0, 0, 5, 10, 0), "", SOME_OTHER))
    with Room({"keys.lst": ONE, "index.bdz": FIVE[:-1]}) as room:
        hold("tryall, cut", room.run("tryall"), (refused(7), "", REFUSED))
    with Room({"keys.lst": ONE}) as room:
        hold("build_index, built", room.run("build_index"), ("", "", BUILT))
    with Room({"keys.lst": ONE[:-1]}) as room:
        hold("build_index, refused", room.run("build_index"), (refused(19), "", REFUSED))


def unreadable_files():
    for program in ("build_index", "tryall"):
        with Room({"index.bdz": OLD}) as room:
            hold(f"{program}, no list", room.run(program), (refused(19), missing("keys.lst"), REFUSED))
        with Room({"index.bdz": OLD}) as room:
            os.mkdir(room.path("keys.lst"))
            hold(f"{program}, list is a folder", room.run(program), (refused(19), "keys.lst: Is a directory\n", REFUSED))
        with Room({"keys.lst": ONE, "index.bdz": OLD}) as room:
            os.chown(room.path("keys.lst"), os.getuid(), os.getgid())
            os.chmod(room.path("keys.lst"), 0)
            hold(f"{program}, list may not be read", room.run(program), (refused(19), "keys.lst: Permission denied\n", REFUSED))
    with Room({"keys.lst": ONE}) as room:
        hold("tryall, no index", room.run("tryall"), (refused(6), missing("index.bdz"), REFUSED))
        os.mkdir(room.path("index.bdz"))
        hold("tryall, index is a folder", room.run("tryall"), (refused(6), "index.bdz: Is a directory\n", REFUSED))


def programs_that_die():
    with Room({"keys.lst": assigned(pairs_of(100, 100), 100), "index.bdz": OLD}) as room:
        # the limit's signal ends the program in the middle of its write
        begun = subprocess.run(
            ["sh", "-c", 'ulimit -f 0; exec "$@"', "sh", os.path.join(room.top, "bin", "build_index")], cwd=room.folder,
            stdout=subprocess.PIPE, stderr=subprocess.DEVNULL, check=False,
        )
        hold("build_index, ended by a signal", (begun.stdout, begun.returncode), (b"", FAILED))
        hold("build_index, ended by a signal, old index", room.holds("index.bdz"), OLD)
    for program in ("build_index", "tryall"):
        with Room({"keys.lst": ONE, "index.bdz": FIVE}) as room:
            said = f"{program}: ended with status 1\n"
            hold(f"{program}, ended with a status", room.run(program, under="false"), ("", said, FAILED))
            os.unlink(os.path.join(room.top, PROGRAMS[program]))
            said = f"{program}: not built yet: make programs\n"
            hold(f"{program}, not built", room.run(program), ("", said, FAILED))
    # nothing printed where two lines or a refusal are due
    with Room({"keys.lst": ONE, "index.bdz": FIVE}) as room:
        hold("tryall, silent", room.run("tryall", under="true"), ("", "", FAILED))
    if can_trace():
        with Room({"keys.lst": ONE, "index.bdz": FIVE}) as room:
            printed, said, status, _ = traced(room, "tryall", "-e", "inject=write:signal=SIGKILL:when=3")
            hold("tryall, half a line", (printed, status), ("", FAILED))
            hold("tryall, half a line, said", said.endswith("image BDZ2 n=1\ntryall: ended with status 137\n"), True)


def passed_on():
    """Standard output that cannot be written is a failure; a starter that is called through a link finds its program."""
    with Room({"keys.lst": ONE, "index.bdz": FIVE}) as room:
        with open("/dev/full", "wb") as full:
            hold("tryall, standard output is full", room.run("tryall", stdout=full)[2], FAILED)
        link = os.path.join(room.top, "linked")
        os.symlink(os.path.join("bin", "tryall"), link)
        done = subprocess.run([link], cwd=room.folder, stdout=subprocess.PIPE, check=False)
        hold("tryall, through a link", (done.stdout.decode(), done.returncode), (lines("BDZ2", 1, 1, 3, 1, 1), SAME))


def every_status():
    for topic in (each_status, unreadable_files, programs_that_die, passed_on):
        topic()
