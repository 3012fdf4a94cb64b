"""Runs build_index and tryall, by their starters, on good, damaged and hostile files, each time in a folder of its own.

What they must print, and the images made by hand, are worked out here from document 01. Both programs must have been
built (tools/prove, or rt ci). Run as root, the programs run as nobody, so that a folder can be one that they may not
write.
"""
import sys

import room
from answers import every_answer
from statuses import every_status
from writing import every_trap

every_status()
every_trap()
every_answer()
if room.failures:
    sys.exit(f"programs: {len(room.failures)} of what was expected did not come, in {room.runs} runs")
print(f"programs: {room.runs} runs, all as document 01 says")
