#!/usr/bin/env python3
"""Reads and writes of the programs that go wrong, each done for real: what comes on standard output and error.
`oracle/reads.py [PROGRAM ...]`, of target/bin/ties and target/bin/pairs where none is named; a program's answers are
those of its file's name. Exits with 1 if anything is not as it should be."""
import fcntl
import os
import signal
import socket
import struct
import subprocess
import sys
import tempfile
import time

here = os.path.dirname(os.path.dirname(os.path.abspath(__file__)))
programs = sys.argv[1:] or [os.path.join(here, "target/bin", name) for name in ("ties", "pairs")]

# cut inside its one cost, the front of the file is a file of its own, with cost 123
FRONT = b"%%MatrixMarket matrix coordinate integer general\n1 1 1\n1 1 123"
BACK = b"456\n"
FILE = FRONT + BACK
ANSWERS = {
    "ties": b"matched 1 of 1\n1 1 123456 0\ncounts 0 0 0 0 0 0 0\n",
    "pairs": b"%%MatrixMarket matrix coordinate pattern general\n1 1 1\n1 1\n",
}
LONG = b"refused 22\n"

bad = 0


def held(name, out, err, wanted_out, wanted_err):
    global bad
    right = (out, err) == (wanted_out, wanted_err)
    bad += not right
    print(f"{'ok ' if right else 'BAD'} {name}\n      stdout {out!r}\n      stderr {err!r}")
    if not right:
        print(f"      wanted {wanted_out!r} and {wanted_err!r}")


def start(stdin, stdout=subprocess.PIPE, before=None):
    return subprocess.Popen([program], stdin=stdin, stdout=stdout, stderr=subprocess.PIPE, preexec_fn=before)


def finish(name, run, wanted_out, wanted_err):
    out, err = run.communicate(timeout=60)
    held(name, out or b"", err, wanted_out, wanted_err)


def asleep(run):
    """Waits until the program waits in a read."""
    while open(f"/proc/{run.pid}/stat").read().rsplit(")", 1)[1].split()[0] != "S":
        time.sleep(0.01)
    time.sleep(0.1)


def of_bytes(text):
    file = tempfile.TemporaryFile()
    file.write(text)
    file.seek(0)
    return file


def pieces(name, parts, wanted_out, wanted_err):
    """A pipe whose writer sends the parts one after the other, each when the program waits for it."""
    end, pen = os.pipe()
    run = start(end)
    os.close(end)
    for part in parts:
        asleep(run)
        os.write(pen, part)
    os.close(pen)
    finish(name, run, wanted_out, wanted_err)


def non_blocking():
    """A pipe that does not block, whose writer sends the rest later: the read after the front answers EAGAIN."""
    end, pen = os.pipe()
    fcntl.fcntl(end, fcntl.F_SETFL, os.O_NONBLOCK)
    os.write(pen, FRONT)
    run = start(end)
    os.close(end)
    run.wait(timeout=60)
    try:
        os.write(pen, BACK)
    except BrokenPipeError:
        pass
    os.close(pen)
    finish("a pipe that does not block, with a late writer (EAGAIN)", run, b"", UNREAD)


def interrupted():
    """A socket with a time limit: a stop and a continue make its read answer EINTR (signal(7)), without a handler."""
    end, pen = socket.socketpair()
    end.setsockopt(socket.SOL_SOCKET, socket.SO_RCVTIMEO, struct.pack("ll", 60, 0))
    pen.send(FRONT)
    run = start(end)
    end.close()
    asleep(run)
    run.send_signal(signal.SIGSTOP)
    os.waitpid(run.pid, os.WUNTRACED)
    run.send_signal(signal.SIGCONT)
    run.wait(timeout=60)
    try:
        pen.send(BACK)
    except OSError:
        pass
    pen.close()
    finish("a signal in the middle (EINTR)", run, b"", UNREAD)


def timed_out():
    """The same socket with a short limit, which passes: EAGAIN in the middle."""
    end, pen = socket.socketpair()
    end.setsockopt(socket.SOL_SOCKET, socket.SO_RCVTIMEO, struct.pack("ll", 0, 200000))
    pen.send(FRONT)
    run = start(end)
    end.close()
    finish("a socket whose time limit passes (EAGAIN)", run, b"", UNREAD)
    pen.close()


for program in programs:
    name = os.path.basename(program)
    ANSWER = ANSWERS[name]
    UNREAD = f"{name}: standard input could not be read\n".encode()
    UNWRITTEN = f"{name}: standard output could not be written\n".encode()
    print(f"{name}:")
    finish("a file", start(of_bytes(FILE)), ANSWER, b"")
    finish("a file of no bytes", start(of_bytes(b"")), b"refused 20\n", b"")
    pieces("a slow pipe, in three pieces", [FRONT[:20], FRONT[20:], BACK], ANSWER, b"")
    pieces("a slow pipe, byte by byte at the end", [FRONT] + [BACK[k:k + 1] for k in range(4)], ANSWER, b"")
    finish("32,768 bytes, the last of them blank", start(of_bytes(FILE.ljust(32768, b"\n"))), ANSWER, b"")
    finish("32,769 bytes", start(of_bytes(FILE.ljust(32769, b"\n"))), LONG, b"")
    finish("a million bytes", start(of_bytes(FILE.ljust(1000000, b"\n"))), LONG, b"")
    pieces("32,769 bytes in two pieces", [FILE, b"\n" * (32769 - len(FILE))], LONG, b"")
    non_blocking()
    interrupted()
    timed_out()
    finish("a directory (EISDIR)", start(os.open("/", os.O_RDONLY)), b"", UNREAD)
    finish("no standard input (EBADF)", start(None, before=lambda: os.close(0)), b"", UNREAD)
    finish("an input that is open for writing only (EBADF)", start(os.open("/dev/null", os.O_WRONLY)), b"", UNREAD)
    memory = os.open("/proc/self/mem", os.O_RDONLY)
    finish("/proc/self/mem, whose first byte cannot be read (EIO)", start(memory), b"", UNREAD)
    full = os.open("/dev/full", os.O_WRONLY)
    finish("a full disk as standard output (ENOSPC)", start(of_bytes(FILE), stdout=full), b"", UNWRITTEN)
    finish("no standard output (EBADF)", start(of_bytes(FILE), before=lambda: os.close(1)), b"", UNWRITTEN)
    finish("a refused file and a full disk", start(of_bytes(b"x"), stdout=full), b"", UNWRITTEN)
    finish("a directory and a full disk", start(os.open("/", os.O_RDONLY), stdout=full), b"", UNREAD)
print("all as they should be" if bad == 0 else f"{bad} not as they should be")
sys.exit(bad != 0)
