#!/usr/bin/env python3
"""The program of dist/, and three commands that it has not: `say N M` writes N bytes to standard error and a row of M bytes, `sleep` takes a
minute, and `die` ends it. SLOW=COMMAND:SECONDS delays the reply to a command once after each edit."""
import os
import subprocess
import sys
import time

REAL = os.path.join(os.path.dirname(os.path.dirname(os.path.dirname(os.path.abspath(__file__)))), "dist", "snowbench-x86_64-linux")
BLOCKS, OPEN_BLOCKS, END = (b"routine", b"among", b"grouping"), (b"replace\n", b"families\n"), b"=end=\n"


def serve(words):
    real = subprocess.Popen([REAL, *words], stdin=subprocess.PIPE, stdout=subprocess.PIPE)
    is_in_block, (slow, _, seconds), is_edited = False, os.environ.get("SLOW", "").partition(":"), False
    for line in sys.stdin.buffer:
        word, *sizes = line.split()[:3] or [b""]
        is_in_block = (is_in_block or line.split(b" ")[0] in BLOCKS or line in OPEN_BLOCKS) and line != b".\n"
        if is_edited and word == slow.encode():
            time.sleep(float(seconds))
            is_edited = False
        is_edited = is_edited or line == b".\n" or word == b"reload"
        if word == b"say":
            sys.stderr.write("e" * int(sizes[0]) + "\n")
            sys.stderr.flush()
            sys.stdout.buffer.write(b"r" * int(sizes[1]) + b"\n")
        elif word == b"sleep":
            time.sleep(60)
        elif word == b"die":
            os._exit(3)
        else:
            # (a reply to the lines of a block comes after its point)
            real.stdin.write(line if is_in_block else line + b"echo " + END)
            real.stdin.flush()
            for row in () if is_in_block else iter(real.stdout.readline, END):
                if not row:
                    sys.exit(real.wait())
                sys.stdout.buffer.write(row)
        sys.stdout.buffer.flush()


serve(sys.argv[1:])
