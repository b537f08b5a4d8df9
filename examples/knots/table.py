#!/usr/bin/env python3
"""Makes the documents of this folder from braids, and docs/KNOTS.md from what the program prints for them.

    python3 examples/knots/table.py > docs/KNOTS.md    the page; the program is ./gridhom, or the first argument
    python3 examples/knots/table.py documents          writes each FILE.txt and FILE.out of knots.tsv

The grid of a document is what examples/grids.py makes of the braid of its row: moves that keep the link have made it
smaller. So it is of the closed braid, and not of its mirror image.
"""
import importlib.machinery
import importlib.util
import os
import subprocess
import sys

HERE = os.path.dirname(os.path.abspath(__file__))
PROGRAM = os.path.join(HERE, "..", "..", "gridhom")

HEAD = """# Knots

What the program prints for the documents of [examples/knots](../examples/knots/).
[examples/knots/table.py](../examples/knots/table.py) writes the page, and no line of it is written by hand.

- **Which of a knot and its mirror image**: each grid is of the closed braid in the last column, with the vertical
  strands over. It was made from the braid by moves that keep the link, and the answer was not looked at. In a braid 1
  is the letter in which the lower strand passes over the upper one as both run to the right, so that 1,1,1 is the
  left-handed trefoil.
- The hat is that of the link itself, and a row M A D of it is the term D q^M t^A here. The front, tb, rot, x+ and x-
  are those of a Legendrian link of the **mirror image** ([README](../README.md#conventions)).
- The hats in [examples/knots/knots.tsv](../examples/knots/knots.tsv) are those of the literature, and the program
  prints the same. The last four knots are not alternating: no polynomial with a signature decides their hats.

10_132, whose hat lies on two diagonals, and the Borromean rings: the grid, its front and the hat, as
[tools/draw.py](../tools/draw.py) draws them.

![the grid of 10_132](pictures/10_132-grid.svg)
![its front](pictures/10_132-front.svg)
![its hat](pictures/10_132-chart.svg)

![the grid of the Borromean rings](pictures/borromean-grid.svg)
![its front](pictures/borromean-front.svg)
![its hat](pictures/borromean-chart.svg)

| name | size, O, X | tb | rot | hat | total rank | x+ | x- | closed braid, and what its hat follows from |
|---|---|---|---|---|---|---|---|---|"""


COMPONENTS = """
## Links by component

What `hat` answers for the same documents if their first line is `grid2 N`. A row M D1 .. Dl R of it is the term
R q^M t1^D1 .. tl^Dl here, with a doubled Alexander degree for each component, in the order of their least columns.

| name | exponents | hat by component |
|---|---|---|"""


def literature():
    """The rows of knots.tsv, each a dictionary by the names of the columns."""
    with open(f"{HERE}/knots.tsv", encoding="utf-8") as file:
        lines = [line.rstrip("\n") for line in file if not line.startswith("#")]
    names = lines[0].split("\t")
    return [dict(zip(names, line.split("\t"))) for line in lines[1:]]


def document(name):
    with open(f"{HERE}/{name}.txt", encoding="utf-8") as file:
        return file.read()


def report_of(program, text):
    ran = subprocess.run([program, "run"], input=text, capture_output=True, text=True)
    if ran.returncode:
        sys.exit(f"{program} ended with status {ran.returncode}: {ran.stdout}{ran.stderr}")
    return ran.stdout


def hat_of(report):
    """The rows (M, A, rank) of the hat in a report."""
    return [tuple(map(int, line.split()[1:])) for line in report.splitlines() if line.startswith("rank ")]


def power(letter, e):
    return "" if e == 0 else f" {letter}" if e == 1 else f" {letter}^{e}"


def of_powers(powers, rank):
    return powers.strip() if rank == 1 and powers else f"{rank}{powers}"


def term(m, a, rank):
    return of_powers(power("q", m) + power("t", a), rank)


def component_term(m, *degrees_and_rank):
    *degrees, rank = degrees_and_rank
    return of_powers(power("q", m) + "".join(power(f"t{i}", d) for i, d in enumerate(degrees, 1)), rank)


def line_of(row, text, report):
    """The line of the table for a row of knots.tsv, its document and the report of it."""
    grid = {it.split()[0]: it.split()[1:] for it in text.splitlines() if it[0] in "gOX"}
    front = next(it.split() for it in report.splitlines() if it.startswith("front "))
    verdicts = {it.split()[1]: it.split()[-1] for it in report.splitlines() if it.startswith("class ")}
    hat = hat_of(report)
    cells = [
        row["name"],
        f"{grid['grid'][0]}, {' '.join(grid['O'])}, {' '.join(grid['X'])}",
        front[2],
        front[4],
        " + ".join(term(*it) for it in hat),
        str(sum(rank for _, _, rank in hat)),
        verdicts["+"],
        verdicts["-"],
        f"{row['braid']}; {row['from']}",
    ]
    return f"| {' | '.join(cells)} |"


def by_component(program, reports):
    """The reports of the documents of links in version 2, by name."""
    links = [it for it in reports if "components 1\n" not in reports[it]]
    return {it: report_of(program, document(it).replace("\ngrid ", "\ngrid2 ")) for it in links}


def component_line_of(row, report):
    """The line of the table by component for a row of knots.tsv and its report in version 2."""
    head = next(it.split() for it in report.splitlines() if it.startswith("hat "))
    exponents = head[2 : head.index("rows")]
    return f"| {row['name']} | {' '.join(exponents)} | {' + '.join(component_term(*it) for it in hat_of(report))} |"


def page(reports, in_version_two):
    """The page, from the reports of the documents by name, and those of links in version 2."""
    lines = [line_of(it, document(it["file"]), reports[it["file"]]) for it in literature()]
    links = [it for it in literature() if it["file"] in in_version_two]
    by_components = [component_line_of(it, in_version_two[it["file"]]) for it in links]
    return "\n".join([HEAD, *lines, COMPONENTS, *by_components]) + "\n"


def grids():
    """The module examples/grids.py."""
    loader = importlib.machinery.SourceFileLoader("grids", os.path.join(HERE, "..", "grids.py"))
    module = importlib.util.module_from_spec(importlib.util.spec_from_loader("grids", loader))
    loader.exec_module(module)
    return module


def made_document(row):
    """The document of a row of knots.tsv, from its braid."""
    made = grids()
    letters = [int(it) for it in row["braid"].split()[0].split(",")]
    comment = f"{row['name'][0].upper()}{row['name'][1:]}: the closed braid {row['braid']}."
    return made.document(*made.smaller(*made.of_braid(letters)), comment) + "\n"


def write_documents():
    for row in literature():
        for end, text in (("txt", made_document(row)), ("out", report_of(PROGRAM, made_document(row)))):
            with open(f"{HERE}/{row['file']}.{end}", "w", encoding="utf-8") as file:
                file.write(text)


def main():
    if sys.argv[1:] == ["documents"]:
        return write_documents()
    program = sys.argv[1] if len(sys.argv) > 1 else PROGRAM
    reports = {it["file"]: report_of(program, document(it["file"])) for it in literature()}
    print(page(reports, by_component(program, reports)), end="")


if __name__ == "__main__":
    main()
