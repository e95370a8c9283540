#!/usr/bin/env -S python3 -B
"""The rows and the classes of a corpus, on the machines of a Dask cluster.

    dask-classes.py [--rows] [--files N] [--program PROGRAM] SCHEDULER SCRIPT OUT WORDS ..

SCHEDULER is an address such as tcp://10.0.0.1:8786, and each WORDS is a file of words. All machines see this folder, PROGRAM (the one
of dist/), SCRIPT, the words and the folder OUT at the same paths. Written are:

    OUT/rows/NAME              the rows of the file of words NAME
    OUT/classes/part-0000 ..   N files of classes, a stem and its words, sorted by the stem; a class is in one of them (not with --rows)
    OUT/COUNTS                 rows, refused words, classes. It is written last: without it OUT is not whole

A bad word ends the job with status 1, and its file and line are told (see rows-of-partition, which a task runs). A machine that is
lost is no fault: Dask gives its work to the others. Call it again with the same OUT, and rows that are there are not made again."""
import argparse
import glob
import os
import shutil
import subprocess
import sys
import uuid
from typing import Any, Dict, List, Optional

import cloudpickle
import pandas
from dask import dataframe, delayed
from dask.distributed import Client, progress

import rows

cloudpickle.register_pickle_by_value(rows)  # the workers cannot import it
HERE = os.path.dirname(os.path.realpath(__file__))
# in a checkout, and where tools/install puts it
PROGRAMS = [os.path.join(HERE, "../..", it, "dist/snowbench-x86_64-linux") for it in (".", "../../lib/voltizug")]
PAIRS = {"stem": "object", "word": "object"}
COUNTS = {"classes": "int64", "words in classes": "int64"}


def make_rows(program: str, script: str, words: str, folder: str) -> str:
    """Makes the rows of one file of words, and returns their file. It appears when it is whole, so a task may run twice."""
    command = [os.path.join(HERE, "rows-of-partition"), program, script, words, folder]
    ended = subprocess.run(command, stderr=subprocess.PIPE, check=False)
    if ended.returncode != 0:
        raise ValueError(ended.stderr.decode(errors="replace").strip())
    return os.path.join(folder, os.path.basename(words))


def pairs_of(path: str) -> pandas.DataFrame:
    with rows.read_text(path) as file:
        return pandas.DataFrame(rows.pairs_of(rows.read_records(file)), columns=list(PAIRS))


def write_classes(pairs: pandas.DataFrame, folder: str, partition_info: Optional[Dict[str, int]] = None) -> pandas.DataFrame:
    """Writes a file of classes, from all pairs of their stems. Returns their counts."""
    classes = list(rows.merged_classes([sorted(map(list, zip(pairs["stem"], pairs["word"])))]))
    if partition_info is not None:  # not when Dask asks what columns there will be
        name = f"part-{partition_info['number']:04}"
        making = os.path.join(folder, f".{name}.making.{uuid.uuid4()}")
        with open(making, "w", encoding="utf-8", newline="") as file:
            file.writelines(map(rows.record_line, classes))
        os.replace(making, os.path.join(folder, name))
    return pandas.DataFrame({"classes": [len(classes)], "words in classes": [len(pairs)]})


def count_rows(path: str) -> Dict[str, int]:
    with rows.read_text(path) as file:
        refused = [record[1] != "stem" for record in rows.read_records(file)]
    return {"rows": len(refused), "refused": sum(refused)}


def result_of(client: Client, job: Any) -> Any:
    """The result of a job. At a terminal it shows how far it is."""
    future = client.compute(job)
    if sys.stderr.isatty():
        progress(future, notebook=False)
    return future.result()


def make_classes(client: Client, made: List[Any], files: int, folder: str) -> Dict[str, int]:
    """Brings the pairs of each stem together on one machine, and has their classes written. Returns the counts."""
    pairs = dataframe.from_delayed([delayed(pairs_of)(it) for it in made], meta=PAIRS, verify_meta=False)
    together = pairs.shuffle("stem", npartitions=files, shuffle="tasks")
    return result_of(client, together.map_partitions(write_classes, folder, meta=COUNTS)).sum().to_dict()


def count_all(client: Client, paths: List[str]) -> Dict[str, int]:
    return pandas.DataFrame(client.gather(client.map(count_rows, paths, pure=False))).sum().to_dict()


def run_job(asked: argparse.Namespace, out: str, words: List[str]) -> Dict[str, int]:
    """Makes rows and classes. Returns the counts of all."""
    program, paths = os.path.abspath(asked.program), os.path.join(out, "rows")
    made = [delayed(make_rows)(program, os.path.abspath(asked.script), it, paths) for it in words]
    with Client(asked.scheduler) as client:
        if asked.rows:
            result_of(client, delayed(list)(made))
            return count_all(client, paths_of(paths, words))
        classes = make_classes(client, made, asked.files, os.path.join(out, "classes"))
        return {**count_all(client, paths_of(paths, words)), **classes}


def paths_of(folder: str, words: List[str]) -> List[str]:
    return [os.path.join(folder, os.path.basename(it)) for it in words]


def begin(out: str, words: List[str]) -> None:
    """Takes away what was made of classes, or ends if OUT is one of other words."""
    names = {os.path.basename(it) for it in words}
    if len(names) != len(words):
        sys.exit("dask-classes: two files of words have the same name")
    for folder in ("rows", "classes"):
        os.makedirs(os.path.join(out, folder), exist_ok=True)
    if {it for it in os.listdir(os.path.join(out, "rows")) if not it.startswith(".")} - names:
        sys.exit(f"dask-classes: {out}/rows has rows of other words")
    if os.path.exists(os.path.join(out, "COUNTS")):
        os.remove(os.path.join(out, "COUNTS"))
    shutil.rmtree(os.path.join(out, "classes"))
    os.makedirs(os.path.join(out, "classes"))


def end(out: str, counts: Dict[str, int]) -> None:
    """Takes away what a lost machine left, and writes the counts."""
    for left in glob.glob(os.path.join(glob.escape(out), "*", ".*.making.*")):
        os.remove(left)
    making = os.path.join(out, ".COUNTS.making")
    with open(making, "w", encoding="utf-8") as file:
        file.writelines(f"{name},{count}\n" for name, count in counts.items())
    os.replace(making, os.path.join(out, "COUNTS"))


def read_arguments() -> argparse.Namespace:
    arguments = argparse.ArgumentParser(usage="dask-classes.py [--rows] [--files N] [--program PROGRAM] SCHEDULER SCRIPT OUT WORDS ..")
    arguments.add_argument("--rows", action="store_true")
    arguments.add_argument("--files", type=int, default=16)
    arguments.add_argument("--program", default=next(filter(os.path.exists, PROGRAMS), PROGRAMS[0]))
    for name in ("scheduler", "script", "out"):
        arguments.add_argument(name)
    arguments.add_argument("words", nargs="+")
    return arguments.parse_args()


def main() -> None:
    asked = read_arguments()
    out, words = os.path.abspath(asked.out), [os.path.abspath(it) for it in asked.words]
    begin(out, words)
    try:
        counts = run_job(asked, out, words)
    except ValueError as fault:
        sys.exit(f"dask-classes: {fault}")
    if not asked.rows and counts["words in classes"] != counts["rows"] - counts["refused"]:
        sys.exit(f"dask-classes: not each word with a stem is in a class: {counts}")
    end(out, counts)


if __name__ == "__main__":
    main()
