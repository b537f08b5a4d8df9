#!/usr/bin/env python3
"""Goes through a list of grids with the built program, and writes the list with the program's answers in it.

    tools/survey.py LIST PROGRAM [--processes N]

LIST is a table with a tab between two cells, `-` for standard input. Its first line has the names of its columns. `O`
and `X` have the rows of the marks of a grid. The columns of these names are filled with what the program answers, and
all others stay as they are:

    tb, rot             the numbers of the front
    x+, x-              null or alive
    hat (M A rank)      the rows of the hat, with a semicolon between two, or none

So `diff LIST` of what is written shows where a list says otherwise. N grids are asked at once, one if it is left out.
If the program refuses a grid, or fails on it, the line of the list is named, with status 1.
"""
import argparse
import concurrent.futures
import subprocess
import sys

COMMANDS = {"tb": "front", "rot": "front", "x+": "class +", "x-": "class -", "hat (M A rank)": "hat"}


def document(row, commands):
    """The document of a row, a dictionary by the names of the columns."""
    lines = [f"grid {len(row['O'].split())}", f"O {row['O']}", f"X {row['X']}", *commands, "end"]
    return "".join(f"{line}\n" for line in lines)


def answers(report):
    """What a report says, by the names of the columns."""
    said, hat = {}, []
    for line in report.splitlines():
        match line.split():
            case ["front", "tb", tb, "rot", rot, *_]:
                said |= {"tb": tb, "rot": rot}
            case ["class", sign, *_, verdict]:
                said[f"x{sign}"] = verdict
            case ["rank", *numbers]:
                hat.append(" ".join(numbers))
    return said | {"hat (M A rank)": "; ".join(hat) or "none"}


def filled(program, names, line):
    """The line with the answers of the program, or its status and what it wrote."""
    cells = line.split("\t")
    if len(cells) != len(names):
        raise ValueError(f"{len(cells)} cells under {len(names)} names")
    row = dict(zip(names, cells))
    commands = dict.fromkeys(COMMANDS[name] for name in names if name in COMMANDS)
    ran = subprocess.run([program, "run"], input=document(row, commands), stdout=subprocess.PIPE, text=True)
    if ran.returncode:
        raise ValueError(f"status {ran.returncode}: {ran.stdout.strip()}")
    said = answers(ran.stdout)
    return "\t".join(said[name] if name in COMMANDS else row[name] for name in names)


def main():
    parser = argparse.ArgumentParser(description=__doc__, formatter_class=argparse.RawDescriptionHelpFormatter)
    parser.add_argument("list", metavar="LIST", type=argparse.FileType(encoding="utf-8"))
    parser.add_argument("program", metavar="PROGRAM")
    parser.add_argument("--processes", metavar="N", type=int, default=1)
    options = parser.parse_args()
    head, *lines = options.list.read().splitlines()
    names = head.split("\t")
    if not {"O", "X"} <= set(names):
        sys.exit("survey.py: the list has no columns O and X")
    print(head)
    with concurrent.futures.ThreadPoolExecutor(options.processes) as pool:
        results = [pool.submit(filled, options.program, names, line) for line in lines]
        for number, result in enumerate(results, 2):
            try:
                print(result.result(), flush=True)
            except (OSError, ValueError) as fault:
                pool.shutdown(cancel_futures=True)
                sys.exit(f"survey.py: line {number}: {fault}")


if __name__ == "__main__":
    main()
