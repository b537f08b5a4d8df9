#!/usr/bin/env python3
"""The definitions that a clause of a contract rests on, found by following imports: what has to be believed of it.

    tools/definitions.py CRATE::FUNCTION::CLAUSE      such as grid_job::gridhom::ended

It prints the definitions file by file, with the numbers of their lines (without comments, imports and blank lines), and
their count. Definitions of the kit are not counted. The status is 1 if one of them is a word of specs/Inner, takes a
state by its rank, or rests on a finite map; it is 2 if the clause is not found.
"""
import pathlib
import re
import sys

CRATES = pathlib.Path(__file__).resolve().parent.parent / "crates"
WORD = re.compile(r"[^\W\d◌][\w-]*(?:\.[^\W\d][\w-]*)*|[^\s\w()\[\]{};,.:|\"'◌]+")
USE = re.compile(r"^(pub )?(?:ghost )?use Rattle\.([\w.]+?)(?:\.\{(.*)\})?(?: as (\w+))?;?$")
HEAD = re.compile(r"^(?:(?:abbrev|unfoldable|pub|ghost) )*(?:(record|data) )?(\S+)(?: |$)")
# no state by its rank, no set of codes, no finite map: the words that may not be behind such a clause
RANKS = {"state_rank.specs.States": {"rank", "unrank"}, "f2_algebra.specs.Chain": None}
FINITE = re.compile(r"^std\.specs\.(FinMap|FinSet|BTreeMap|BTreeSet)\b")


class Module:
    """A file of specs/ as its imports and its definitions, each a list of numbered lines."""

    def __init__(self, name, path):
        self.name, self.path = name, path
        self.words, self.aliases, self.passed_on, self.definitions, self.cases = {}, {}, set(), {}, {}
        held = None
        for number, line in enumerate(path.read_text().splitlines(), 1):
            bare = line.split("-- ")[0].rstrip()
            if bare.strip() in ("", "--") or re.match(r"(pub )?mod |infix", bare):
                continue
            found = USE.match(bare)
            if found:
                self.take(*found.groups())
            elif bare[0] != " " and bare[0] not in ")]}":
                held = self.start(bare, held)
                self.definitions[held].append((number, bare))
            elif held:
                self.definitions[held].append((number, bare))
                case = re.match(r"  (\w+) :", bare)
                if case and " data " in f" {self.definitions[held][0][1]}":
                    self.cases[case.group(1)] = held

    def take(self, public, path, names, alias):
        if names is None:
            self.aliases[alias or path.rsplit(".", 1)[-1]] = path
        for name in filter(None, (n.strip() for n in (names or "").split(","))):
            outside, _, inside = name.partition(" as ")
            self.words[(inside or outside).replace("◌", "")] = (path, outside.replace("◌", ""))
            if public:
                self.passed_on.add((inside or outside).replace("◌", ""))

    def start(self, line, held):
        name = HEAD.match(line).group(2)
        if name.replace("◌", "") in self.definitions:
            return name.replace("◌", "")
        if " : " in line.split("=")[0] or re.match(r"(pub )?(record|data) |pub \S+ :", line):
            self.definitions[name.replace("◌", "")] = []
            return name.replace("◌", "")
        return held  # a clause of an operator, which begins with a pattern


MODULES = {}


def module(name):
    """The module of a dotted name, or of the longest part of it that is a file; None for one of the kit."""
    parts = name.split(".")
    for end in range(len(parts), 2, -1):
        path = CRATES.joinpath(*parts[:end]).with_suffix(".antt")
        if path.is_file():
            key = ".".join(parts[:end])
            if key not in MODULES:
                MODULES[key] = Module(key, path)
            return MODULES[key], parts[end:]
    return None, []


def rust_type(name):
    """The type of a source file that specs/declared stands for: its place, and its lines."""
    crate, rest = name.split(".specs.declared.")
    parts = [p for p in rest.split(".") if not p.startswith("The")]
    modules, kind = [p for p in parts if p[0].islower()], next(p for p in parts if p[0].isupper())
    path = CRATES.joinpath(crate, "src", *(modules or ["lib"])).with_suffix(".rt")
    lines, inside = [], False
    for number, line in enumerate(path.read_text().splitlines(), 1):
        if re.match(rf"pub(\(crate\))? (struct|enum|type) {kind}\b", line):
            inside = True
        if inside and line.strip() and not line.strip().startswith(("//", "#")):
            lines.append((number, line))
            if line[0] in ")}" or line.rstrip().endswith(";") or line.rstrip().endswith("}"):
                break
    return path, kind, lines


class Search:
    """What has been reached: for each file its definitions, and the words that may not be among them."""

    def __init__(self):
        self.reached, self.wrong = {}, []

    def lines_of(self, path, word, lines):
        if word in self.reached.setdefault(path, {}):
            return False
        self.reached[path][word] = lines
        return True

    def word(self, place, word):
        """Follows a word that stands for itself in the module of this name."""
        if FINITE.match(place):
            self.wrong.append(f"{place}: {word}")
        if place.split(".")[0] not in {p.name for p in CRATES.iterdir()}:
            return
        if ".declared." in place or ".declared." in f"{place}.{word}":
            path, kind, lines = rust_type(f"{place}.{word}" if word[:1].isupper() else place)
            self.lines_of(path, kind, lines)
            return
        home, inner = module(place)
        if home is None:
            raise SystemExit(f"no module {place}")
        word = inner[0] if inner else home.cases.get(word, word)
        if word in home.definitions:
            banned = RANKS.get(home.name, set())
            if ".specs.Inner" in home.name or banned and word in banned or banned is None and word != "is_odd":
                self.wrong.append(f"{home.name}: {word}")
            if self.lines_of(home.path, word, home.definitions[word]):
                self.text(home, "\n".join(line for _, line in home.definitions[word]), word)
        elif word in home.passed_on:
            self.word(*home.words[word])
        else:
            raise SystemExit(f"{home.name} has no word {word}")

    def text(self, home, text, itself=None):
        """Follows each word of a text in a module, by its definitions and imports."""
        for token in WORD.findall(re.sub(r'"[^"]*"', "", text)):
            first, _, rest = token.partition(".")
            if first in home.aliases and rest:
                self.word(home.aliases[first], rest.split(".")[0])
            elif first in home.words:
                self.word(*home.words[first])
            elif first in home.definitions and first != itself:
                self.word(home.name, first)
            elif first in home.cases and home.cases[first] != itself:
                self.word(home.name, first)


def clause(crate, function, label):
    """The text of a clause, with the imports of its file."""
    for path in sorted((CRATES / crate / "src").glob("**/*.rt")):
        text = path.read_text()
        found = re.search(rf"\n *pub fn {function}\b(.*?)\n *{{\n", text, re.S)
        begun = found and re.search(rf"ensures {label} {{", found.group(1))
        if begun:
            rest, depth = found.group(1)[begun.end():], 1
            for end, letter in enumerate(rest):
                depth += (letter == "{") - (letter == "}")
                if depth == 0:
                    break
            home = Module.__new__(Module)
            home.name, home.words, home.aliases, home.passed_on, home.definitions, home.cases = str(path), {}, {}, set(), {}, {}
            for line in text.splitlines():
                if USE.match(line.strip()) and "ghost use" in line:
                    home.take(*USE.match(line.strip()).groups())
            return home, rest[:end]
    return None, None


def ranges(numbers):
    """Numbers as ranges, such as 4-6, 9."""
    parts = []
    for number in sorted(numbers):
        if parts and number == parts[-1][1] + 1:
            parts[-1][1] = number
        else:
            parts.append([number, number])
    return ", ".join(str(a) if a == b else f"{a}-{b}" for a, b in parts)


def main():
    parts = sys.argv[1].split("::") if len(sys.argv) == 2 else []
    home, text = clause(*parts) if len(parts) == 3 else (None, None)
    if home is None:
        print(__doc__.strip() if len(parts) != 3 else f"no such clause: {sys.argv[1]}", file=sys.stderr)
        return 2
    search = Search()
    search.text(home, text)
    counts = {".antt": [0, 0, 0], ".rt": [0, 0, 0]}
    for path, held in sorted(search.reached.items()):
        numbers = {number for one in held.values() for number, _ in one}
        for place, more in enumerate((len(numbers), len(held), 1)):
            counts[path.suffix][place] += more
        print(f"{path.relative_to(CRATES.parent)}: {len(numbers)} lines ({ranges(numbers)})")
        print("    " + ", ".join(held))
    print("{} lines of {} definitions in {} files of specs/".format(*counts[".antt"]))
    print("{} lines of {} types in {} files of src/".format(*counts[".rt"]))
    for one in dict.fromkeys(search.wrong):
        print(f"stands behind the clause: {one}")
    return 1 if search.wrong else 0


if __name__ == "__main__":
    sys.exit(main())
