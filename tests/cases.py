#!/usr/bin/env python3
"""Makes the cases of the program crates/cases, and what it is to print for each.

Usage: cases.py FOLDER [SEED]      writes FOLDER/stdin and FOLDER/stdout; the same arguments give the same bytes
The corpus comes first, of merged logs, with silent stations, with panels, with messages and without: mutants.py takes it from there, and
pairs of logs.
"""
import pathlib
import sys

import bases
import bench_cases
import corpus
import large
import merge
import messages
import panels
import read_write
import silent
import silent_cases
import walks

SEED = 20261115


def main():
    folder = pathlib.Path(sys.argv[1])
    seed = int(sys.argv[2]) if len(sys.argv) > 2 else SEED
    made = [*merge.asked(seed), *silent.cases(seed), *panels.cases(seed), *messages.cases(seed), *corpus.cases(seed)]
    made += [*bench_cases.cases(), *bases.cases(seed), *read_write.cases(), *walks.cases(seed), *large.cases(seed), *silent_cases.cases(seed)]
    made += merge.cases(seed)
    (folder / "stdin").write_bytes(b"".join(case for case, _ in made))
    (folder / "stdout").write_bytes(b"".join(printed for _, printed in made))


main()
