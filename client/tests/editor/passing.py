"""Programs of tests that say some replies themselves."""
import os
import subprocess
import sys
from typing import Callable, Optional

TOP = os.path.dirname(os.path.dirname(os.path.dirname(os.path.dirname(os.path.abspath(__file__)))))
REAL = os.environ.get("SNOWBENCH_PROGRAM") or os.path.join(TOP, "dist", "snowbench-x86_64-linux")


def pass_on(own_reply: Callable[[bytes], Optional[bytes]]) -> None:
    """Writes for each line of standard input its own reply or, if that is nothing, the reply of the program of SNOWBENCH_PROGRAM, or of dist/."""
    real = subprocess.Popen([REAL, *sys.argv[1:]], stdin=subprocess.PIPE, stdout=subprocess.PIPE, close_fds=False)
    assert real.stdin and real.stdout
    for line in sys.stdin.buffer:
        reply = own_reply(line)
        if reply is not None:
            sys.stdout.buffer.write(reply)
        else:
            real.stdin.write(line + b"echo =end=\n")
            real.stdin.flush()
            for answer in iter(real.stdout.readline, b"=end=\n"):
                if not answer:
                    sys.exit(real.wait())
                sys.stdout.buffer.write(answer)
        sys.stdout.flush()
