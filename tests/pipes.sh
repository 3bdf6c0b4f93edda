#!/usr/bin/env bash
# `probe` at its ends: a full device, a pipe that closes, one that refuses for a while, a read that fails, a slow pipe and one of single
# bytes, a malformed record before others, reads that end in a record, and many reads and records. A write or a read that fails ends the
# run, standard error says so, and what was written is the front of the whole output.
# usage: tests/pipes.sh   (PROBE: the program; default target/bin/probe)
set -euo pipefail
cd "$(dirname "$0")/.."
exec python3 - "${PROBE:-target/bin/probe}" <<'PYTHON'
import os
import signal
import socket
import subprocess
import sys
import tempfile
import time

probe = sys.argv[1]
records = open("crates/probe/stdin", "rb").read()
lines = open("crates/probe/stdout", "rb").read()
UNREAD = b"probe: standard input cannot be read\n"
UNWRITTEN = b"probe: standard output cannot be written\n"
tests = 0


def same(what, found, wanted):
    global tests
    if found != wanted:
        sys.exit(f"error: {what}: {found[-80:]!r} in place of {wanted[-80:]!r}")
    tests += 1


def started(stdin, stdout, ignore=True):
    """SIGPIPE ignored: a closed pipe is then a write that fails, and not a signal."""
    prepare = (lambda: signal.signal(signal.SIGPIPE, signal.SIG_IGN)) if ignore else (lambda: signal.signal(signal.SIGPIPE, signal.SIG_DFL))
    return subprocess.Popen([probe], stdin=stdin, stdout=stdout, stderr=subprocess.PIPE, preexec_fn=prepare)


def source():
    return open("crates/probe/stdin", "rb")


# a full device
with open("/dev/full", "wb") as full:
    run = started(source(), full)
    same("a full device", run.communicate()[1], UNWRITTEN)

# a pipe that closes: a write that fails, however the program was started, since it ignores SIGPIPE itself
for ignore in (True, False):
    out, into = os.pipe()
    run = started(source(), into, ignore)
    os.close(into)
    front = os.read(out, 1000)
    os.close(out)
    same("a pipe that closes", run.communicate()[1], UNWRITTEN)
    same("what was read of it", front, lines[: len(front)])

# a pipe that refuses for a while: nothing follows the first write that failed
out, into = os.pipe()
os.set_blocking(into, False)
run = started(source(), into)
os.close(into)
time.sleep(0.5)
found = b""
while piece := os.read(out, 1 << 16):
    found += piece
same("a pipe that refuses", run.communicate()[1], UNWRITTEN)
same("what it took", found, lines[: len(found)])
if len(found) == len(lines):
    sys.exit("error: the pipe did not refuse")

# a read that fails is no end of the input
directory = os.open("crates", os.O_RDONLY)
run = started(directory, subprocess.PIPE)
found, said = run.communicate()
same("a directory: lines", found, b"")
same("a directory: said", said, UNREAD)


def fed(pieces, wait):
    run = started(subprocess.PIPE, subprocess.PIPE)
    if os.fork() == 0:
        for piece in pieces:
            os.write(run.stdin.fileno(), piece)
            time.sleep(wait)
        os._exit(0)
    run.stdin.close()
    run.stdin = None
    return run.communicate()


def cut(data, size):
    return [data[at : at + size] for at in range(0, len(data), size)]


# a slow pipe, and one of single bytes
same("a slow pipe", fed(cut(records, 9000), 0.001), (lines, b""))
few = open("examples/plane.records", "rb").read() + open("examples/mesh.records", "rb").read()
whole = subprocess.run([probe], input=few, capture_output=True).stdout
same("single bytes", fed(cut(few, 1), 0), (whole, b""))
same("single bytes, cut short", fed(cut(few[:-1], 1), 0)[0].splitlines()[-1].split()[1:], [b"bad"])
same("nothing", fed([], 0), (b"", b""))

# document 01's first record and its line, so many times
record = open("examples/plane.records", "rb").read()[:94]
answer = open("examples/plane.lines", "rb").readline().split(b" ", 1)[1]


def numbered(count):
    return b"".join(b"%d %s" % (number, answer) for number in range(1, count + 1))


def packets(pieces):
    """Each piece is what one read gives; the end of the input follows. A run that hangs is ended."""
    ours, theirs = socket.socketpair(socket.AF_UNIX, socket.SOCK_SEQPACKET)
    run = started(theirs, subprocess.PIPE)
    theirs.close()
    if os.fork() == 0:
        for piece in pieces:
            ours.send(piece)
        os._exit(0)
    ours.close()
    try:
        return run.communicate(timeout=120)
    except subprocess.TimeoutExpired:
        run.kill()
        sys.exit("error: probe hangs")


def failing(data):
    """A pipe that holds these bytes and then has a read that fails."""
    out, into = os.pipe()
    os.set_blocking(out, False)
    os.write(into, data)
    found = started(out, subprocess.PIPE).communicate()
    os.close(out)
    os.close(into)
    return found


# a malformed record is the last: what follows it, past the input area too, is neither answered nor read as a stream of its own
stream = bytes.fromhex("00000002 0901").ljust(65536, b"\0") + record
run = subprocess.run([probe], input=stream, capture_output=True)
same("bad, zeros and a record, in a pipe", (run.stdout, run.stderr), (b"1 bad\n", b""))
with tempfile.TemporaryFile() as file:
    file.write(stream)
    file.seek(0)
    same("bad, zeros and a record, in a file", started(file, subprocess.PIPE).communicate(), (b"1 bad\n", b""))

# what is read before a read that fails is neither answered as if the input had ended nor read as a malformed record
same("a record, 40 bytes and a failure", failing(record + record[:40]), (b"", UNREAD))
found, said = failing(record * 100 + record[:40])
same("100 records, 40 bytes and a failure: said", said, UNREAD)
same("100 records, 40 bytes and a failure: lines", found, numbered(found.count(b"\n")))
if not 0 < found.count(b"\n") < 100:
    sys.exit("error: the failure came before the first line or after the last")
# a read that ends one byte before a longest record would: 8,195 bytes, then 77, which are 88 records
same("8,195 bytes and 77", packets([(record * 88)[:8195], (record * 88)[8195:]]), (numbered(88), b""))
# as many reads as records, more than 65,536
same("70,000 reads", packets([record] * 70000), (numbered(70000), b""))
# more than 262,144 records
run = subprocess.run([probe], input=record * 300000, capture_output=True)
same("300,000 records", (run.stdout, run.stderr), (numbered(300000), b""))
print(f"pipes: {tests} tests passed")
PYTHON
