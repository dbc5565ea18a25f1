"""Prints each wrong body that can't be put into its crate's sources as they stand, with the reason.

Wrong bodies stand in crates/NAME/must-fail, where the gate has the prover refuse each, and in wrong-bodies/NAME, where
wrong-bodies/run does. Each is a file of lines 'file: PATH', 'old: TEXT' and 'new: TEXT', the old text standing once in
the file.

usage: edits.py TOP"""

import re
import sys
from pathlib import Path


def fault(edit, crate):
    """Why the edit can't be made, or an empty text."""
    texts, path, old = {}, None, None
    for line in edit.read_text().splitlines():
        word, _, text = line.partition(":")
        text = text.removeprefix(" ")
        if word == "file":
            path = crate / text
            if not path.is_file():
                return f"there is no file {text}"
            texts.setdefault(path, path.read_text())
        elif word == "old" and path:
            old = text
        elif word == "new" and old:
            found = texts[path].count(old)
            if found != 1:
                return f"{old!r} stands {found} times in {path.name}"
            texts[path] = texts[path].replace(old, text)
        else:
            return f"a line out of place: {line!r}"
    changes = any(text != file.read_text() for file, text in texts.items())
    return "" if changes else "it changes nothing"


def main(top):
    crates = re.findall(r"^(\w+)[^:\n]*:", (top / "crates.txt").read_text(), re.MULTILINE)
    for folder in sorted(it for it in (top / "wrong-bodies").iterdir() if it.is_dir() and it.name not in crates):
        print(f"{folder.relative_to(top)}: no crate has that name")
    for name in crates:
        seen = set()
        for edit in sorted([*top.glob(f"crates/{name}/must-fail/*"), *top.glob(f"wrong-bodies/{name}/*")]):
            why = "it stands in both places" if edit.name in seen else fault(edit, top / "crates" / name)
            seen.add(edit.name)
            if why:
                print(f"{edit.relative_to(top)}: {why}")


main(Path(sys.argv[1]))
