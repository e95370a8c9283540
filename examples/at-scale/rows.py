"""Rows of `snowbench filter` and lines of classes: records of CSV, quoted as snowbench does it."""
import csv
import heapq
import itertools
import operator
import sys
from typing import IO, Iterable, Iterator, List, Tuple

csv.field_size_limit(1 << 21)  # the longest stem is quoted in less
NUL_OF_READING = "\udc00"  # csv of Python 3.10 takes no NUL. No text in UTF-8 has this character


def read_records(file: IO[str]) -> Iterator[List[str]]:
    """The records of a file that was opened with newline=''."""
    for record in csv.reader(line.replace("\0", NUL_OF_READING) for line in file):
        yield [field.replace(NUL_OF_READING, "\0") for field in record]


def record_line(fields: Iterable[str]) -> str:
    return ",".join(map(quoted, fields)) + "\n"


def quoted(field: str) -> str:
    if any(mark in field for mark in ',"\r\n'):
        return '"' + field.replace('"', '""') + '"'
    return field


def pairs_of(records: Iterable[List[str]]) -> List[Tuple[str, str]]:
    """The stem and the word of each row that has a stem, in the order of code points."""
    return sorted((record[2], record[0]) for record in records if record[1] == "stem")


def merged_classes(pairs: Iterable[Iterable[List[str]]]) -> Iterator[List[str]]:
    """The classes of sorted pairs: a stem and its words. No more than one class is kept in memory."""
    for stem, members in itertools.groupby(heapq.merge(*pairs), key=operator.itemgetter(0)):
        yield [stem, *(word for _, word in members)]


def read_text(path: str) -> IO[str]:
    return open(path, encoding="utf-8", newline="")


def use_utf8() -> None:
    """Standard input and output are UTF-8 with line feeds, whatever the locale says."""
    sys.stdin.reconfigure(encoding="utf-8", newline="")
    sys.stdout.reconfigure(encoding="utf-8", newline="\n")
