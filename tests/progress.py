#!/usr/bin/env python3
"""Whether `probe-part` shows its progress on a terminal, and only there.

  progress.py PROBE-PART STL

100,000 rays, a wait of more than a second, and 100,000 more: after the second block the line is due.
"""
import os
import pty
import subprocess
import sys
import time

program, part = sys.argv[1:]
rays = b"47 52 50 0 0 -1 100\n" * 100_000


def fed(error):
    run = subprocess.Popen(
        [program, "cast", part, "--rays", "-"], stdin=subprocess.PIPE, stdout=subprocess.DEVNULL, stderr=error
    )
    run.stdin.write(rays)
    run.stdin.flush()
    time.sleep(1.5)
    run.stdin.write(rays)
    run.stdin.close()
    return run


outer, inner = pty.openpty()
run = fed(inner)
assert run.wait() == 0
os.close(inner)
seen = b""
try:
    while piece := os.read(outer, 4096):
        seen += piece
except OSError:
    # a terminal whose last user is gone
    pass
assert b"casting: 200000 so far" in seen, seen
assert seen.endswith(b"\r\x1b[K"), seen

run = fed(subprocess.PIPE)
assert run.stderr.read() == b"" and run.wait() == 0
print("long work shows its progress on a terminal, and only there")
