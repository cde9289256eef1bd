#!/usr/bin/env python3
"""Brings the repository's own definitions and lemmas to today's spelling: words in snake case, types and modules as they are.

usage: tools/port_names.py [ROOT]          once, after the kit's port.py: crates/, and the names that documents cite between backticks
       tools/port_names.py --list [ROOT]   prints old and new name, and which names fall together; writes nothing

A name is respelled where it is declared in specs/ or in a file of lemmas of proofs/ (a function's own folder has names that Rattle makes).
camelCase becomes snake_case; a dash becomes an underscore, but for the one behind a definition's name (`move_number-le`).
Of a definition and a lemma that fall together the lemma gets `_lem`. Comments keep their text but for names between backticks; strings, functions of src/ and exported names keep theirs.
"""

import os
import re
import sys

WORD = r"[\w'◌ℕ₀-₉-]"
TOP = re.compile(r"^(?:(?:abbrev|unfoldable|opaque|pub|record|data|ruleset)\s+)*([a-z][\w'-]*)(?:\s+[^:]*?)?\s:(?:\s|$)")
DEEP = re.compile(r"^\s+(?:(?:abbrev|unfoldable|opaque|pub|record|data|ruleset)\s+)*([a-z][\w'-]*)(?:\s\([^:]*)?\s:\s")
KEEPS_DASH = {"length", "get_or", "or_else"}
MADE = re.compile(r"^(?:returns|invariant-loop|decreases-loop)(?:-\d+)?$")


def files(root, ends):
    for folder, dirs, names in os.walk(root):
        dirs[:] = sorted(d for d in dirs if d not in ("out", ".git", "target"))
        for f in sorted(names):
            if f.endswith(ends):
                yield os.path.join(folder, f)


def is_of_function(path):
    folder, name = os.path.split(path)
    return name in ("Proof.antt", "Invariants.antt", "Answers.antt") and os.path.basename(folder) not in ("specs", "proofs")


def snake(name):
    name = name.replace("getD", "get_or").replace("get_d_", "get_or_").replace("orElse", "or_else")
    head, dash, tail = name.partition("-")
    keeps = bool(dash) and (re.search(r"[A-Z_]", head) is not None or head in KEEPS_DASH)
    name = re.sub(r"(?<=[a-z0-9])([A-Z])|(?<=[A-Z])([A-Z])(?=[a-z])", lambda m: "_" + m[0], name)
    name = re.sub(r"[A-Z]", lambda m: m[0].lower(), name)
    if not keeps:
        return name.replace("-", "_")
    head, dash, tail = name.partition("-")
    return head + "-" + tail.replace("-", "_")


def declared(root):
    found = {}
    for p in files(os.path.join(root, "crates"), (".antt",)):
        if is_of_function(p):
            continue
        with open(p, encoding="utf-8") as f:
            for line in f:
                if line.startswith(("--", "use ")):
                    continue
                m = DEEP.match(line) if line.startswith(" ") else TOP.match(line)
                if m and not MADE.match(m[1]):
                    found.setdefault(m[1], set()).add(p)
    return found


def imported(root):
    """Names that the kit's libraries have too."""
    own = set(os.listdir(os.path.join(root, "crates")))
    found = set()
    for p in files(os.path.join(root, "crates"), (".antt", ".rt")):
        with open(p, encoding="utf-8") as f:
            for m in re.finditer(r"^(?:ghost )?use ([\w.◌]+)\.\{([^}]*)\}", f.read(), re.M):
                path = m[1].split(".")
                if not (path[0] == "Rattle" and len(path) > 1 and path[1] in own):
                    found |= {x.strip() for x in m[2].split(",")}
    return found


def rank(name):
    """Of names that fall together the first keeps the word, and the others get `_lem`."""
    return (0 if re.search(r"[A-Z]", name) else 2 if "-" in name else 1, name)


def respell(text, names, pattern):
    return pattern.sub(lambda m: names[m[0]], text)


def in_comment(text, names, pattern):
    return re.sub(r"`[^`\n]*`", lambda m: respell(m[0], names, pattern), text)


def code(text, mark, names, pattern):
    """A file line by line: the code respelled, strings and comments not, but for backticks in comments."""
    out = []
    for line in text.split("\n"):
        parts = re.split(r'("(?:[^"\\]|\\.)*")', line)
        new, comment = "", False
        for i, part in enumerate(parts):
            if comment or i % 2:
                new += in_comment(part, names, pattern) if comment else part
                continue
            at = re.search(r"(?:^|(?<=\s))" + re.escape(mark), part)
            if at:
                new += respell(part[: at.start()], names, pattern) + in_comment(part[at.start() :], names, pattern)
                comment = True
            else:
                new += respell(part, names, pattern)
        out.append(new)
    return "\n".join(out)


def main(argv):
    only_list = argv[:1] == ["--list"]
    root = (argv[1:] if only_list else argv) or ["."]
    root = root[0]
    found = declared(root)
    for n in imported(root):
        found.pop(n, None)
    together = {}
    for n in sorted(found, key=rank):
        together.setdefault(snake(n), []).append(n)
    clashes = {s: ns for s, ns in together.items() if len(ns) > 1}
    names = {n: s + ("_lem" if i else "") for s, ns in together.items() for i, n in enumerate(ns)}
    names = {n: s for n, s in names.items() if n != s}
    if only_list:
        for n in sorted(names):
            print(n, names[n])
        for s, ns in sorted(clashes.items()):
            same = set.intersection(*(found[n] for n in ns))
            print(f"together: {s}: {' '.join(ns)}" + (f"; in one file: {' '.join(sorted(same))}" if same else ""))
        return 0
    pattern = re.compile(r"(?<!" + WORD + r")(?:" + "|".join(re.escape(n) for n in sorted(names, key=len, reverse=True)) + r")(?!" + WORD + r")")
    for p in list(files(os.path.join(root, "crates"), (".antt", ".rt"))):
        with open(p, encoding="utf-8") as f:
            old = f.read()
        new = code(old, "--" if p.endswith(".antt") else "//", names, pattern)
        if new != old:
            with open(p, "w", encoding="utf-8") as f:
                f.write(new)
    return 0


if __name__ == "__main__":
    sys.exit(main(sys.argv[1:]))
