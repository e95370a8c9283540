"""The blocks of a page, its command lines and its links."""
import os
import re
from typing import Iterator, List, NamedTuple, Tuple

CODE = re.compile(r"`([^`]+)`")


class Block(NamedTuple):
    """Lines between fences of this kind, or lines that are indented and have no kind. `number` is that of the line before them."""

    page: str
    number: int
    kind: str
    lines: List[str]

    def place(self) -> str:
        return f"{self.page}:{self.number + 1}: {self.lines[0].strip()}"


def read_lines(path: str) -> List[str]:
    with open(path, encoding="utf-8", newline="\n") as file:
        return file.read().split("\n")


def blocks_of(path: str) -> Iterator[Block]:
    """Yields the blocks of a page in order. An indented one is between empty lines."""
    page, kind, fence, begin, before = os.path.basename(path), "", "", 0, ""
    found: List[str] = []
    for number, line in enumerate([*read_lines(path), ""], 1):
        mark = re.match(r"( *)```(.*)", line)
        is_within = line.startswith("    ") and not fence and not mark and (bool(found) or not before)
        if found and not is_within and (mark or not fence):
            yield Block(page, begin, kind, found)
            found = []
        if mark:
            kind, fence = ("", "") if fence else (mark[2] or "text", mark[1] + "```")
        elif fence or is_within:
            begin = begin if found else number - 1
            found.append(line[len(fence) - 3 if fence else 4 :])
        before = line


def plain_lines(path: str) -> Iterator[Tuple[int, str]]:
    """Yields the lines of a page outside of fences, with their numbers."""
    is_fenced = False
    for number, line in enumerate(read_lines(path), 1):
        is_fence = line.lstrip().startswith("```")
        is_fenced ^= is_fence
        if not is_fenced and not is_fence:
            yield number, line


def anchors_of(path: str) -> List[str]:
    """The anchors of a page's headings, as GitHub makes them."""
    titles = [line.lstrip("#").strip().lower() for _, line in plain_lines(path) if line.startswith("#")]
    return [re.sub(r"[^\w\- ]", "", title).replace(" ", "-") for title in titles]


def links_of(path: str) -> Iterator[Tuple[int, str]]:
    """Yields the links of a page into the repository, with the numbers of their lines."""
    for number, line in plain_lines(path):
        for target in re.findall(r"\]\(([^)\s]+)\)", CODE.sub("", line)):
            if not re.match(r"[a-z]+:", target):
                yield number, target


def wrong_links(path: str) -> Iterator[str]:
    """Yields the links that lead to no file, or to no heading."""
    for number, target in links_of(path):
        name, _, anchor = target.partition("#")
        other = os.path.normpath(os.path.join(os.path.dirname(path), name)) if name else path
        if not os.path.exists(other) or anchor and anchor not in anchors_of(other):
            yield f"{os.path.basename(path)}:{number}: {target}"
