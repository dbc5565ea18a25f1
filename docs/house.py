#!/usr/bin/env python3
"""Counts over the crates and the pages what docs/MEASURED.md tells under "The house, counted": python3 docs/house.py [TOP].

It knows of the language only how lines begin in this repository: a declaration is a line NAME : .., with words
such as `pub` or `abbrev` before the name, and a comment stands on the line above; a type is a line `pub struct NAME`,
or with `enum`, `trait` or `type`. A sentence of a page ends at a full stop, a question mark or a colon before a blank
and a capital letter; each item of a list and each cell of a table begins one. So it is with a manual page's, where the
end of a line ends a sentence whatever comes then. Its synopsis and its examples are left out."""

import collections
import os
import re
import sys

REPOSITORY = sys.argv[1] if len(sys.argv) > 1 else os.path.join(os.path.dirname(os.path.abspath(__file__)), "..")
TOP = os.path.join(REPOSITORY, "crates")
MANUALS = ["docs/ipfw_replay.1", "docs/report_view.1"]
PAGES = ["README.md", "CHANGELOG.md"] + [f"docs/{name}.md" for name in ("DECISIONS", "LOCK", "MAP", "MEASURED", "RECIPES", "RULES")]
DECLARED = re.compile(r"^( *)(?:(abbrev|unfoldable) )?(pub )?(record |data )?([^\s:(){}.\\]+)((?: [({].*?[)}])*) : ?(.*)$")
TYPE = re.compile(r"^ *pub (?:struct|enum|trait|type) (\w+)")
SENTENCE_END = re.compile(r"(?<=[.?!:])[\"')*]*\s+(?=[A-Z`*\"(0-9])")
ITEM = re.compile(r"\s*(\d+\. |- )")
# Macros of mdoc(7) that stand within a sentence; each other one ends what stands before it.
WITHIN = {"Ar", "Cm", "Fl", "Fx", "Ic", "Nm", "Pa", "Pq", "Ql", "Sx", "Sy", "Xr"}
NAME_ALONE = {"Fx": "FreeBSD", "Nm": "NAME"}
CLAUSE = re.compile(r"\s*(requires|ensures|invariant|decreases)\b")
WIDEST_CLAUSE = 100
SMALL_FILE = 12
WINDOW = 6
LONGEST_SENTENCE = 40


def files(*parts):
    """The paths below crates/ that have one of these endings, `out/` left out."""
    for folder, folders, names in os.walk(TOP):
        folders[:] = sorted(name for name in folders if name != "out")
        for name in sorted(names):
            if name.endswith(parts):
                yield os.path.relpath(os.path.join(folder, name), TOP)


def text_of(path):
    with open(os.path.join(TOP, path), encoding="utf-8") as file:
        return file.read()


def lines_of(path):
    return text_of(path).split("\n")


def is_in(path, room):
    return path.split("/")[1] == room


def declarations(path):
    """Each declaration: its column, whether it is a definition, whether it is public, its name, its type, its line."""
    lines = lines_of(path)
    for place, line in enumerate(lines):
        found = DECLARED.match(line)
        if not found or line.lstrip().startswith(("let ", "--", "use ")):
            continue
        column, kind, public, data, name, _, statement = found.groups()
        for more in lines[place + 1:]:
            if not more.startswith(column + " "):
                break
            statement += " " + more.strip()
        yield len(column), bool(kind or data), bool(public), name, statement, place


def is_told(path, place):
    """Whether a comment stands above the line."""
    return place > 0 and lines_of(path)[place - 1].lstrip().startswith("--")


def lemmas():
    stated = collections.Counter()
    for path in files(".antt"):
        if is_in(path, "proofs") and not path.endswith("Answers.antt"):
            for column, definition, _, _, statement, _ in declarations(path):
                if column == 0 and not definition:
                    stated[statement] += 1
    twice = sum(1 for times in stated.values() if times > 1)
    print(f"statements of lemmas in two places or more: {twice} of {sum(stated.values())}")


def definitions():
    crates = collections.defaultdict(set)
    untold, participles, count = [], [], 0
    for path in files(".antt"):
        if is_in(path, "specs"):
            for _, definition, public, name, _, place in declarations(path):
                if not (definition and public):
                    continue
                count += 1
                crates[name].add(path.split("/")[0])
                if not is_told(path, place):
                    untold.append(f"{path}: {name}")
                if re.fullmatch(r"[a-z]+(ed|en|ung|ept|eft|ent|ade|old|ought)", name):
                    participles.append(name)
    shared = sorted(name for name, of in crates.items() if len(of) > 1)
    print(f"names of public definitions in two crates or more: {len(shared)} of {len(crates)}: {' '.join(shared)}")
    print(f"public definitions without a line above: {len(untold)} of {count}", *untold)
    print("names that may be bare participles, to be read:", *sorted(set(participles)))


def types():
    crates = collections.defaultdict(set)
    for path in files(".rt"):
        if is_in(path, "src"):
            for line in lines_of(path):
                found = TYPE.match(line)
                if found:
                    crates[found[1]].add(path.split("/")[0])
    shared = sorted(name for name, of in crates.items() if len(of) > 1)
    told = " ".join(f"{name} ({', '.join(sorted(crates[name]))})" for name in shared)
    print(f"names of public types in two crates or more: {len(shared)} of {len(crates)}: {told}")


def sources():
    small = [path for path in files(".rt") if is_in(path, "src") and text_of(path).count("\n") <= SMALL_FILE]
    every = [path for path in files(".rt") if is_in(path, "src")]
    print(f"source files of {SMALL_FILE} lines or fewer: {len(small)} of {len(every)}")
    rooms = collections.defaultdict(set)
    for path in files(".antt"):
        if is_in(path, "specs"):
            rooms[path.split("/")[0]].add(os.path.basename(path)[:-5].lower())
    citing = [path for path in every if f"ghost use Rattle.{path.split('/')[0]}.specs." in text_of(path)]
    named = [path for path in citing
             if os.path.basename(path)[:-3].replace("_", "") in rooms[path.split("/")[0]]]
    print(f"source files that cite their crate's definitions and share a name with a file of them: {len(named)} of {len(citing)}")


def clauses():
    every = [line for path in files(".rt") for line in lines_of(path) if CLAUSE.match(line)]
    wide = [line for line in every if len(line) > WIDEST_CLAUSE]
    print(f"clauses whose first line has more than {WIDEST_CLAUSE} columns: {len(wide)} of {len(every)}")


def repeated():
    places = collections.defaultdict(list)
    for path in files(".rt", ".antt"):
        lines = [line.strip() for line in lines_of(path)]
        for place in range(len(lines) - WINDOW + 1):
            window = lines[place:place + WINDOW]
            if all(len(line) > 3 for line in window) and not all(line.startswith(("use ", "ghost use ")) for line in window):
                places["\n".join(window)].append((path, place))
    pairs = {(one[0], other[0], other[1] - one[1])
             for met in places.values() for at, one in enumerate(met) for other in met[at + 1:]
             if one[0] != other[0] or other[1] - one[1] >= WINDOW}
    print(f"pairs of places that share {WINDOW} lines or more: {len(pairs)}")


def paragraphs(page):
    """The paragraphs, items and cells of a page, without its examples."""
    parts, is_example = [[]], False
    with open(os.path.join(REPOSITORY, page), encoding="utf-8") as file:
        for line in file:
            if line.startswith("```"):
                is_example = not is_example
            if is_example or line.startswith(("```", "    ")) and not ITEM.match(line) or not line.strip():
                parts.append([])
            elif line.startswith("|"):
                parts += [[cell] for cell in line.strip().strip("|").split(" | ")] + [[]]
            else:
                if ITEM.match(line):
                    parts.append([])
                parts[-1].append(line.strip())
    return [" ".join(part) for part in parts if part]


def spoken(words):
    """A line of macros within a sentence, as it is read."""
    read = []
    for place, word in enumerate(words):
        if word in WITHIN:
            if word in NAME_ALONE and (place + 1 == len(words) or not re.search(r"\w", words[place + 1])):
                read.append(NAME_ALONE[word])
        elif word != "Ns":
            read.append(word)
    if words[0] == "Xr" and len(read) > 1:
        read[:2] = [f"{read[0]}({read[1]})"]
    return " ".join(read)


def manual_paragraphs(page):
    """The paragraphs and items of a manual page, cut behind each line that ends a sentence."""
    parts, is_left_out = [[]], False
    with open(os.path.join(REPOSITORY, page), encoding="utf-8") as file:
        for line in file:
            words = line.lstrip(".").split()
            if line.startswith(".Sh"):
                is_left_out = "SYNOPSIS" in words
            elif line.startswith((".Bd", ".Ed")):
                is_left_out = line.startswith(".Bd")
            if is_left_out or not words or line.startswith(".") and words[0] not in WITHIN:
                parts.append([])
                continue
            parts[-1].append(spoken(words) if line.startswith(".") else line.strip())
            if parts[-1][-1].endswith((".", "?")):
                parts.append([])
    return [" ".join(part) for part in parts if part]


def sentences():
    for page in PAGES + MANUALS:
        if os.path.exists(os.path.join(REPOSITORY, page)):
            parts = manual_paragraphs(page) if page in MANUALS else paragraphs(page)
            counts = [sum(1 for word in sentence.split() if re.search(r"\w", word))
                      for part in parts for sentence in SENTENCE_END.split(part)]
            long = sum(1 for count in counts if count > LONGEST_SENTENCE)
            print(f"sentences of more than {LONGEST_SENTENCE} words in {page}: {long} of {len(counts)}")


lemmas()
definitions()
types()
sources()
clauses()
repeated()
for crate in ("ipfw_parser", "rule_round_trip"):
    entries = os.listdir(os.path.join(TOP, crate, "proofs"))
    flat = sum(entry.endswith(".antt") for entry in entries)
    print(f"flat files of lemmas in {crate}, Lib among them: {flat}, and rooms: {len(entries) - flat}")
sentences()
