#!/usr/bin/env python3
"""Brings this repository's own definitions, fields and lemmas to today's spelling, in which words are joined by underscores.

usage: python3 tools/respell.py            at the top of the repository, once, after the toolchain's port.py
       python3 tools/respell.py --table    prints the old and new names and changes nothing

A name is the repository's own if a file of specs/ or proofs/ declares it, at any depth. A proof's answers to its function's goals are named
after the goals and keep their names, and so do names that some file imports from outside the repository. Names that would fall together
stop the script.
"""

import collections
import os
import re
import sys

DECLARED = re.compile(r"^ *(?:(?:abbrev|unfoldable|opaque|private|pub|instance) )*(?:(record|data|module) )?([^\s(){}\[\];,]+)((?: [^=]*?)?) : (.*)$")
IMPORT = re.compile(r"\buse ([^\s{;]+)\.\{([^}]*)\}")
WORD = re.compile(r"[^\s(){}\[\];,.`\"|]+")
KEYWORDS = {"let", "in", "where", "use", "module", "record", "data", "λ", "--", "|", "→"}


def texts(root, endings):
    for folder, dirs, files in os.walk(root):
        dirs[:] = sorted(d for d in dirs if d not in ("out", "target", ".git"))
        for f in sorted(files):
            if f.endswith(endings):
                path = os.path.join(folder, f)
                with open(path, encoding="utf-8") as it:
                    yield path, it.read()


def snake(name):
    """lowerCamel and dashed words in snake case. Behind a definition's name of several words a dash stays, which joins two names."""
    if name[:1].isupper():
        return name
    name = name.replace("getD-", "getOr-")
    words = [re.sub(r"(?<=[a-z0-9])([A-Z])", lambda m: "_" + m.group(1).lower(), p) for p in name.split("-")]
    return ("-" if re.search("[a-z][A-Z]", name) else "_").join(words)


def own_names():
    declared, foreign = collections.defaultdict(set), set()
    for path, text in texts("crates", ".antt"):
        for line in text.split("\n"):
            m = DECLARED.match(line)
            if not m or line.lstrip().startswith("--") or m.group(2) in KEYWORDS:
                continue
            if re.match(r"tie\.", m.group(4)) or m.group(2).endswith("-spec"):
                continue
            declared[m.group(2)].add(path)
    for path, text in texts("crates", (".antt", ".rt")):
        for m in IMPORT.finditer(text):
            if not m.group(1).startswith("Rattle.xcf"):
                foreign |= {w.split(" as ")[0].strip() for w in m.group(2).split(",")}
    return declared, foreign


def table():
    """New names for every file, and new names for those files alone that declare or import a lemma of that name."""
    declared, foreign = own_names()
    new = {n: snake(n) for n in declared if snake(n) != n and n not in foreign}
    definitions = {k for n, k in new.items() if "-" not in n} | {n for n in declared if "_" in n and any("/specs/" in p for p in declared[n])}
    other = {n for n in declared if "_" in n and n not in new}
    new = {n: k + "_lem" if "-" in n and k in definitions | other else k for n, k in new.items()}
    scoped = {n: n + "_lem" for n in other if n in {k for m, k in new.items() if "-" not in m}}
    taken = collections.defaultdict(set)
    for n in declared:
        taken[new.get(n, scoped.get(n, n))].add(n)
    together = {k: v for k, v in taken.items() if len(v) > 1}
    outside = {n: k for n, k in new.items() if k in foreign}
    return new, scoped, together, outside, {n for n in declared if snake(n) != n and n in foreign}


def respelled(text, new):
    return WORD.sub(lambda m: new.get(m.group(0), m.group(0)), text)


def respelled_lemmas(text, scoped):
    """Names of lemmas that a definition's new name would hide, in a file that declares or imports them."""
    for n, k in scoped.items():
        here = re.search(r"(?m)^ *(?:pub )?" + n + "(?: [^=]*?)? : ", text)
        from_elsewhere = any(n in re.split(r"[,\s]+", m.group(2)) and ".proofs." in m.group(1) for m in IMPORT.finditer(text))
        if here or from_elsewhere:
            text = re.sub(r"(?<![\w.'-])" + n + r"(?![\w'-]|\.\w)", k, text)
    return text


def respelled_rust(text, new):
    """Imports and clauses, and names between backticks in comments. The code itself has no name of these shapes."""
    return "\n".join(respelled_prose(l, new) if l.lstrip().startswith("//") else respelled(l, new) for l in text.split("\n"))


def respelled_prose(text, new):
    """Names between backticks."""
    return re.sub(r"`[^`\n]+`", lambda m: respelled(m.group(0), new), text)


def main(argv):
    new, scoped, together, outside, kept = table()
    if argv == ["--table"]:
        for n in sorted(new):
            print(n, new[n])
        print("in the files of the lemma alone:", scoped)
        print("kept, as others have the name:", sorted(kept))
        print("together:", {k: sorted(v) for k, v in together.items()})
        print("as a name from outside:", outside)
        return 0
    if together or outside:
        print("names fall together:", together, outside)
        return 1
    changed = 0
    pages = [(p, t) for p, t in texts("docs", ".md")] + [("README.md", open("README.md", encoding="utf-8").read())]
    for turn, found in (
        (lambda t, n: respelled(respelled_lemmas(t, scoped), n), texts("crates", ".antt")),
        (respelled, texts("crates", ".edit")),
        (respelled_rust, texts("crates", ".rt")),
        (respelled_prose, pages),
    ):
        for path, text in list(found):
            to = turn(text, new)
            if to != text:
                changed += 1
                with open(path, "w", encoding="utf-8") as it:
                    it.write(to)
    print(changed, "files,", len(new), "names")
    return 0


if __name__ == "__main__":
    raise SystemExit(main(sys.argv[1:]))
