"""Runs under strace, which stops a program at a system call, or has the call fail."""
import functools
import os
import re
import shutil
import subprocess

from room import as_nobody


def traced(room, program, *words):
    """A run under the tracer: what it came to, and the system calls that it made."""
    log = os.path.join(room.top, "trace", "log")
    os.makedirs(os.path.dirname(log))
    os.chmod(os.path.dirname(log), 0o777)
    came = room.run(program, under=" ".join(["strace", "-o", log, "-e", "trace=all", *words]))
    with open(log, encoding="latin-1") as lines:
        return *came, re.findall(r"^(\w+)\(", lines.read(), re.M)


@functools.lru_cache
def can_trace():
    tracer = shutil.which("strace")
    if tracer:
        tried = subprocess.run(as_nobody() + [tracer, "-o", "/dev/null", "true"], stderr=subprocess.DEVNULL, check=False)
        if tried.returncode == 0:
            return True
    print("programs: strace cannot be had here; no run was stopped at a system call")
    return False
