#!/usr/bin/env python3
"""Holds the documents to the tree: each path, function, theorem, must-fail edit and link that README.md and docs/ name is there. docs/landings, docs/PORT.md and
docs/DESIGN-PASS.md are left out: they name what stood when they were written. Every must-fail edit stands in docs/datasheet/wrong_answers.md, which has a row with two at the least for each exported
function. Each function of the files that the datasheet names for demand 1 has an `ensures`, and none has a `requires`.

Usage: documents.py. Prints what is missing, and last 'N passed, M failed'."""

import itertools
import os
import re
import sys

ROOT = os.path.dirname(os.path.dirname(os.path.abspath(__file__)))
WRONG_ANSWERS = "docs/datasheet/wrong_answers.md"
LEFT_OUT = ("PORT.md", "DESIGN-PASS.md")
EXPORTING = ("set_up", "store", "peeks", "many_reads", "lists", "lock_records", "field", "transcript")
INNER = {"peeks::peek_plan"}
ASKING_NOTHING = {"set_up": r"\w+", "store": r"\w+", "peeks": r"\w+", "many_reads": "read_many"}
PATH = r"[\w{},./-]+"
EDIT = r"`(\w+/(?:\w+|\{[\w, ]+\}))`"
STATED = r"((?:`[\w-]+`(?:, | and )?)+) in `((?:crates/\w+/)?(?:specs|proofs)/\w+\.antt)`"


def read(path):
    with open(os.path.join(ROOT, path), encoding="utf-8") as file:
        return file.read()


def there(path):
    return os.path.exists(os.path.join(ROOT, path))


def documents():
    found = ["README.md"]
    for folder, _, names in os.walk(os.path.join(ROOT, "docs")):
        found += [os.path.relpath(os.path.join(folder, name), ROOT) for name in names if name.endswith(".md") and name not in LEFT_OUT and not folder.endswith("landings")]
    return sorted(found)


def expanded(text):
    """The words that braces stand for: a{b,c}d is abd and acd."""
    parts = [[part] if i % 2 == 0 else [word.strip() for word in part.split(",")] for i, part in enumerate(re.split(r"\{([^{}]*)\}", text))]
    return ["".join(choice) for choice in itertools.product(*parts)]


def crates():
    return re.findall(r"^(\w+)(?: staticlib)?:", read("crates.txt"), re.M)


def declared(crate):
    """The functions and types that a crate's code declares."""
    folder = f"crates/{crate}/src"
    code = "".join(read(f"{folder}/{name}") for name in sorted(os.listdir(os.path.join(ROOT, folder))) if name.endswith(".rt"))
    return set(re.findall(r"\b(?:fn|struct|enum|const) (\w+)", code))


def edits():
    found = set()
    for crate in crates():
        folder = os.path.join(ROOT, f"crates/{crate}/must-fail")
        if os.path.isdir(folder):
            found |= {f"{crate}/{name[:-5]}" for name in os.listdir(folder) if name.endswith(".edit")}
    return found


def exported():
    """The functions that a buyer may call from Rattle (docs/DECISIONS.md, 'What a buyer may call')."""
    return {f"{crate}::{name}" for crate in EXPORTING for name in re.findall(r"^pub fn (\w+)", read(f"crates/{crate}/src/lib.rt"), re.M)} - INNER


def contracts():
    """What each function for demand 1 says before its body, by its name: all of three files, and many reads."""
    for crate, names in ASKING_NOTHING.items():
        for name, head in re.findall(r"\bfn (\w+)(.*?)\{\n", read(f"crates/{crate}/src/lib.rt"), re.S):
            if re.fullmatch(names, name):
                yield f"{crate}::{name}", head


def shown(text):
    return {edit for word in re.findall(EDIT, text) for edit in expanded(word)}


def named(text, known):
    """What a document names: what it is, its name, whether it is there."""
    for word in re.findall(r"`([^`\n]+)`", text):
        first = word.split("/")[0]
        if re.fullmatch(PATH, word) and "/" in word and os.path.isdir(os.path.join(ROOT, first)):
            yield from (("path", path, there(path)) for path in expanded(word))
        if re.fullmatch(r"\w+/(?:src|specs|proofs|must-fail)(?:/%s)?" % PATH, word) and not there(first):
            yield from (("path", f"crates/{path}", there(f"crates/{path}")) for path in expanded(word))
        parts = re.fullmatch(r"(\w+)::(\w+|\{[\w, ]+\})", word)
        if parts and parts.group(1) in known:
            yield from (("function", f"{parts.group(1)}::{name}", name in known[parts.group(1)]) for name in expanded(parts.group(2)))
    for names, path in re.findall(STATED, text):
        path = path if path.startswith("crates/") else f"crates/model/{path}"
        stated = read(path) if there(path) else ""
        yield from (("statement", f"{name} of {path}", re.search(rf"(?<![\w-]){re.escape(name)}(?![\w-])", stated) is not None) for name in re.findall(r"[\w-]+", names) if name != "and")


def main():
    passed = failed = 0

    def hold(document, what, name, holds):
        nonlocal passed, failed
        passed, failed = passed + holds, failed + (not holds)
        if not holds:
            print(f"{document}: {what} {name} is not there")

    known = {crate: declared(crate) for crate in crates()}
    for document in documents():
        text = read(document)
        for what, name, holds in named(text, known):
            hold(document, what, name, holds)
        for link in re.findall(r"\]\(([^)#:]+)\)", text):
            hold(document, "link", link, there(os.path.join(os.path.dirname(document), link)))

    page, listed = read(WRONG_ANSWERS), edits()
    for edit in sorted(shown(page) | listed):
        hold(WRONG_ANSWERS, "edit", edit, edit in shown(page) and edit in listed)
    rows = dict(re.findall(r"^\| `([\w:]+)` (\|.*\|)$", page, re.M))
    for function in sorted(exported() | set(rows)):
        hold(WRONG_ANSWERS, "a row with two edits of", function, len(shown(rows.get(function, ""))) >= 2)
    for function, head in contracts():
        hold("docs/DATASHEET.md", "an `ensures`, and no `requires`, of", function, "ensures" in head and not re.search(r"\brequires\b", head))
    print(f"{passed} passed, {failed} failed")
    sys.exit(1 if failed or not passed else 0)


if __name__ == "__main__":
    main()
