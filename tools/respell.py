#!/usr/bin/env python3
"""Brings the definitions and lemmas of this repository to the spelling of today's Rattle: words in snake case.

usage: python3 tools/respell.py          at the top of the repository, once, after port.py

Names that specs/*.antt and proofs/*.antt declare in camel case or with dashes get underscores, wherever those files, the proofs of
functions, clauses, comments, must-fail edits and the pages of docs/ say them. A name from source keeps its spelling, and so does a
name that a library declares where a file imports it from there. Where two names of one crate fall together, the lemma gets `_lem`.
"""

import os
import re
import sys

TOP = os.getcwd()
WORD = r"[^\s(){}\[\].,;:λ⌜⌝«»\"|`]+"
DECLARED = re.compile(rf"^\s*(?:(?:pub|abbrev|unfoldable) )*({WORD}(?: {WORD})*) :(?: |$)")
LIBRARIES = ("mathlib.", "Prim.", "native.", "lib.", "borrow.", "denote.", "types.", "base.", "contract.", "mir.", "Rattle.std.", "Rattle.core.", "Rattle.io.")


def files(*ends):
    for folder, dirs, names in os.walk(os.path.join(TOP, "crates")):
        dirs[:] = sorted(d for d in dirs if d not in ("out", "target"))
        for name in sorted(names):
            if name.endswith(ends):
                yield os.path.join(folder, name)


def read(path):
    with open(path, encoding="utf-8") as f:
        return f.read()


def snake(name):
    name = re.sub(r"(?<=[a-z0-9])([A-Z]+)(?=[A-Z][a-z]|$|[^A-Za-z])", lambda m: "_" + m.group(1).lower(), name)
    name = re.sub(r"(?<=[a-z0-9])([A-Z])", lambda m: "_" + m.group(1).lower(), name)
    return name.replace("-", "_").replace("′", "'")


def is_own(path):
    """A file of definitions or of lemmas, and no proof of a function."""
    parts = os.path.relpath(path, TOP).split(os.sep)
    return len(parts) == 4 and parts[2] in ("specs", "proofs")


def turns(name):
    """Whether a name is a word (it begins in lower case) in another spelling than snake case."""
    return bool(re.match(r"[a-z]", name)) and snake(name) != name


def declared():
    """name -> the files that declare it."""
    found = {}
    for path in files(".antt"):
        if not is_own(path):
            continue
        for line in read(path).split("\n"):
            m = DECLARED.match(line)
            if not m or line.lstrip().startswith("--"):
                continue
            words = m.group(1).split(" ")
            if words[0] in ("let", "use", "λ", "module", "record", "data", "elim", "in") or "_" in words and len(words) > 1:
                continue
            for w in words:
                found.setdefault(w, set()).add(path)
    return found


def table(found):
    """old name -> new name."""
    new = {n: snake(n) for n in found if turns(n)}
    by_new = {}
    for n in found:
        by_new.setdefault(new.get(n, n), set()).add(n)
    clashes = []
    for made, olds in by_new.items():
        if len(olds) < 2:
            continue
        definitions = [o for o in olds if any("/specs/" in p for p in found[o])]
        lemmas = sorted(o for o in olds if o not in definitions)
        clashes.append((made, sorted(definitions), lemmas))
        for i, lemma in enumerate(lemmas if definitions else lemmas[1:]):
            new[lemma] = made + "_lem" + ("" if i == 0 else str(i + 1))
    return {o: n for o, n in new.items() if o != n}, clashes


TOKEN = re.compile(WORD)


def imported_from_libraries(text):
    names = set()
    for m in re.finditer(r"^\s*(?:pub |ghost )*use ([\w.'·-]+)\.\{([^}]*)\}", text, re.M):
        if (m.group(1) + ".").startswith(LIBRARIES) and not m.group(1).startswith("Rattle.std.specs.Prelude_"):
            names |= {n.strip().split(" as ")[0] for n in m.group(2).split(",")}
    return names


def turn(text, names, prose):
    """Every token that is in the table; in prose (a comment), names with dashes only between backticks."""
    def one(m):
        w = m.group(0)
        tail = ""
        while w and w not in names and w[-1] in "?!":
            w, tail = w[:-1], w[-1] + tail
        if w in names and not (prose and "-" in w):
            return names[w] + tail
        return m.group(0)
    return TOKEN.sub(one, text)


def turn_code(text, names, comment):
    lines = []
    for line in text.split("\n"):
        at = line.find(comment)
        if at < 0 or '"' in line[:at]:
            lines.append(turn(line, names, False))
            continue
        said = re.sub(r"`[^`]*`", lambda m: turn(m.group(0), names, False), line[at:])
        lines.append(turn(line[:at], names, False) + turn(said, names, True))
    return "\n".join(lines)


def turn_rust(text, names):
    """Clauses, ghost items and comments: names in source are in snake case already, so what the table has in camel case is a clause's."""
    camel = {o: n for o, n in names.items() if "-" not in o}
    kebab = {o: n for o, n in names.items() if "-" in o}
    lines = []
    for line in text.split("\n"):
        line = re.sub(r"`[^`]*`", lambda m: turn(m.group(0), names, False), line)
        if line.startswith("ghost use"):
            line = turn(line, kebab, False)
        if re.search(r'^\s*b?"|"[^"]*"', line) and not re.search(r"ghost|ensures|requires", line):
            lines.append(line)
            continue
        lines.append(turn(line, camel, False))
    return "\n".join(lines)


def pages():
    for name in ("README.md", "CONTRIBUTING.md"):
        yield os.path.join(TOP, name)
    for folder in ("docs", "docs/changes", "transcripts", "host", "second"):
        for name in sorted(os.listdir(os.path.join(TOP, folder))):
            if name.endswith(".md") and not name.startswith(("PORT", "DESIGN-PASS")):
                yield os.path.join(TOP, folder, name)


def turn_page(text, names):
    def quoted(m):
        t = m.group(0)
        if re.search(r"\.(edit|in|out|rs|c|h|antt|rt)\b|rules-alone|^`\./|^`\.ci/", t):
            parts = re.split(r"(/[\w/.-]+)", t)
            return "".join(p if p.startswith("/") else turn(p, {o: n for o, n in names.items() if "-" not in o}, False) for p in parts)
        return turn(t, names, False)
    text = re.sub(r"`[^`\n]+`", quoted, text)
    camel = {o: n for o, n in names.items() if "-" not in o}
    return "\n".join(turn_table_row(line, camel) for line in text.split("\n"))


def turn_table_row(line, camel):
    """In a table the definitions stand bare, as `DigestForms.ofBytes` or `Codes.least`."""
    if not line.startswith("|"):
        return line
    pieces = re.split(r"(`[^`]*`)", line)
    return "".join(p if p.startswith("`") else turn(p, camel, False) for p in pieces)


def main():
    found = declared()
    names, clashes = table(found)
    for made, definitions, lemmas in clashes:
        print("falls together:", made, definitions, lemmas)
    mine = {o for o in names}
    for path in files(".antt"):
        text = read(path)
        use = {o: n for o, n in names.items() if o not in imported_from_libraries(text)}
        after = turn_code(text, use, "--")
        if after != text:
            write(path, after)
    for path in files(".rt"):
        text = read(path)
        after = turn_rust(text, {o: n for o, n in names.items() if o not in imported_from_libraries(text)})
        if after != text:
            write(path, after)
    for path in files(".edit"):
        text = read(path)
        rust = ".rt" in text
        after = turn_rust(text, names) if rust else turn_code(text, names, "-- ")
        if after != text:
            write(path, after)
    for path in pages():
        text = read(path)
        after = turn_page(text, names)
        if after != text:
            write(path, after)
    print(len(names), "names respelled of", len(found))


def write(path, text):
    with open(path, "w", encoding="utf-8") as f:
        f.write(text)


if __name__ == "__main__":
    sys.exit(main())
