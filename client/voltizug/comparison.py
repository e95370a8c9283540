"""Two scripts over a list of words, by the verb `compare`."""
import subprocess
from typing import List, Optional, Sequence, Tuple

from .program import in_memory, lines_of


def comparison(program: str, words: Sequence[str], seconds: Optional[float] = None) -> Tuple[List[str], List[str]]:
    """Returns the rows of `compare` with these words after it; of what cannot be compared none, and what the program says then."""
    command, pipe = [program, "compare", "--rows", *words], subprocess.PIPE
    ended = subprocess.run(command, stdin=subprocess.DEVNULL, stdout=pipe, stderr=pipe, check=False, pass_fds=in_memory(words), timeout=seconds)
    if ended.returncode in (0, 1) and ended.stdout:
        return lines_of(ended.stdout), []
    said = ended.stderr.decode("utf-8", "surrogateescape").splitlines()
    return [], said or ["snowbench: the program ended with status %d" % ended.returncode]
