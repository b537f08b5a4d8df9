#!/usr/bin/env python3
"""Puts random mistakes into certificates, and compares the answers of `check` and of check_certificate.py.

Texts that are no certificates any more are left out. Prints how often each test was the answer.

    tools/mistaken_certificates.py [SEED [COUNT [PROGRAM]]]      1, 400 and crates/grid_cli/out/grid_cli by default
"""
import collections
import pathlib
import random
import subprocess
import sys

TOP = pathlib.Path(__file__).resolve().parent.parent


def run(command, text=""):
    return subprocess.run(command, input=text, capture_output=True, text=True).stdout


def with_a_mistake(lines):
    """The lines with one change in a cell or a pair."""
    at = random.randrange(4, len(lines) - 1)
    first, *rest = lines[at].split()
    chance = random.random()
    if first == "cell" and chance < 0.5:
        rest[random.randrange(2)] = str(random.randint(-4, 3))
    elif first == "cell":
        return lines[:at] + lines[at + 1 :]
    elif chance < 0.2:
        pair = at if first in ("cycle", "step") else at - 1
        return lines[:pair] + lines[pair + 2 :]
    elif chance < 0.6 and rest:
        rest.pop(random.randrange(len(rest)))
    else:
        digits = [str(k) for k in range(int(lines[1].split()[1]))]
        random.shuffle(digits)
        rest = sorted({*rest, "".join(digits)})
    return lines[:at] + [" ".join([first, *rest])] + lines[at + 1 :]


def certificates(program):
    for size in range(2, 6):
        for seed in range(1, 4):
            document = run([program, "make", "--size", str(size), "--seed", str(seed)])
            yield run([program, "cert"], document).splitlines()


def main():
    given = sys.argv[1:]
    seed, count, program = given + ["1", "400", str(TOP / "crates/grid_cli/out/grid_cli")][len(given) :]
    random.seed(int(seed))
    whole = list(certificates(program))
    answers, differences = collections.Counter(), 0
    for _ in range(int(count)):
        lines = random.choice(whole)
        for _ in range(random.choice((1, 1, 2, 3))):
            lines = with_a_mistake(lines)
        text = "\n".join(lines) + "\n"
        answer = run([program, "check"], text)
        if answer.startswith("refused"):
            answers["refused"] += 1
            continue
        answers[answer.split()[-1]] += 1
        second = run([sys.executable, str(TOP / "tools/check_certificate.py")], text)
        if second != answer:
            differences += 1
            print(f"{answer!r} and {second!r} on:\n{text}")
    print(", ".join(f"{word} {times}" for word, times in sorted(answers.items())), f"; {differences} differences")
    sys.exit(1 if differences else 0)


main()
