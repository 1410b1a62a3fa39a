#!/usr/bin/env python3
"""Places in crates/*/src (and proofs) where an older form of Rattle may stand, by the points of docs/DESIGN-PASS.md.

    python3 tools/places.py [--at COMMIT] [--list]

Prints how many places each search finds, and with --list where. --at reads the sources of a commit in place of the
checkout's."""
import argparse
import collections
import pathlib
import re
import subprocess

args = argparse.ArgumentParser()
args.add_argument("--at")
args.add_argument("--list", action="store_true")
args = args.parse_args()
top = pathlib.Path(__file__).resolve().parent.parent


def git(*words):
    return subprocess.run(["git", "-C", str(top), *words], check=True, capture_output=True, text=True).stdout


def texts(folder, end):
    """The path and text of each file of the crates' folders of this name."""
    if args.at:
        for path in git("ls-tree", "-r", "--name-only", args.at, "crates").split():
            if path.split("/")[2] == folder and path.endswith(end):
                yield path, git("show", f"{args.at}:{path}")
    else:
        for path in sorted(top.glob(f"crates/*/{folder}/**/*{end}")):
            yield str(path.relative_to(top)), path.read_text()


files = list(texts("src", ".rt"))
# Every function: path, line, name, parameters, clauses, body. A body ends at a brace in the column where the item begins.
function = re.compile(r"^( *)(?:pub(?:\([a-z]+\))? )?(?:extern \"C\" )?fn (\w+)(.*?)(?:^\1| )\{\n(.*?)^\1\}", re.M | re.S)
functions = []
for path, text in files:
    for m in function.finditer(text):
        functions.append((path, text.count("\n", 0, m.start()) + 1, m.group(2), m.group(3), m.group(4)))


def lines(pattern, skip=None):
    """Lines of code that the pattern is found in."""
    found = []
    for path, text in files:
        for number, line in enumerate(text.split("\n"), 1):
            code = line.split("//")[0]
            if re.search(pattern, code) and not (skip and re.search(skip, line)):
                found.append(f"{path}:{number}: {line.strip()}")
    return found


def structs(field):
    """Structs, but those that C reads, with such a field."""
    found = []
    for path, text in files:
        for m in re.finditer(r"((?:#\[[^\n]*\]\n)*)(?:pub(?:\([a-z]+\))? )?struct (\w+)[^;{]*\{(.*?)\n\}", text, re.S):
            if "repr(C)" not in m.group(1) and re.search(field, m.group(3)):
                found.append(f"{path}: {m.group(2)}")
    return found


def enums():
    """Enums in which bare variants stand beside variants with values."""
    found = []
    for path, text in files:
        for m in re.finditer(r"enum (\w+)[^{]*\{(.*?)\n\}", text, re.S):
            variants = re.findall(r"^    (\w+)(.)", re.sub(r"//.*", "", m.group(2)), re.M)
            if len({end == "," for _, end in variants}) == 2:
                found.append(f"{path}: {m.group(1)}")
    return found


def by_hand():
    """Values of zeros, constructors that only name their fields, conversions, comparisons and copies, by the names of the
    functions that a reader of the first line's sources found, where their bodies are still of such a form."""
    names = ("none unused_row numbers row_in wide pair less_one or_zero one answered refusal ended start word_at put_word stands "
             "clear clear_from put all_zero not_listed side_ok outside unmapped visible_unsaid put_long_head").split()
    form = re.compile(r"\A\s*\w+ as \w+\s*\Z|% 256|\* 65536|\* 256|\{ [01n] \} else \{|else \{ false \}|(?:\w+: 0,\s*){2}"
                      r"|self\.\w+,\n|: table\[at|\bwhile |\A\s*\w+ \{\s*(?:\w+,\s*){2,}|Cursor \{ at|return refusal::"
                      r"|return true;\n    \}\n    high|\bpick\(")
    return [f"{path}:{line} {name}" for path, line, name, _, body in functions if name in names and form.search(body)]


def answers():
    """Files of answers and of invariants."""
    return [path for path, _ in texts("proofs", ".antt") if path.endswith(("/Answers.antt", "/Invariants.antt"))]


def uses(name):
    """Lines of proofs that use a law."""
    return [f"{path}:{number}" for path, text in texts("proofs", ".antt") for number, line in enumerate(text.split("\n"), 1)
            if re.search(rf"(?<![\w.]){name}(?![\w}}])", line) and not line.startswith(("use ", "--", "pub "))]


word = re.compile(r"[A-Za-z_]\w*")
kept = set("if else while for in loop match return let mut as true false".split())


def shape(body):
    body = re.sub(r"\b\d+\b", "0", re.sub(r"//.*", "", body))
    return re.sub(r"\s+", " ", word.sub(lambda m: m.group() if m.group() in kept else "x", body))


def twins():
    """Functions whose bodies have one shape, of three lines and more."""
    by_shape = collections.defaultdict(list)
    for path, line, name, _, body in functions:
        if body.count("\n") >= 3:
            by_shape[shape(body)].append(f"{path}:{line} {name}")
    return [" = ".join(group) for group in by_shape.values() if len(group) > 1]


def facts():
    """Predicates that stand in the requires of three functions and more."""
    users = collections.defaultdict(set)
    for path, line, name, head, _ in functions:
        for clause in re.findall(r"requires[^{]*\{(.*?)\}\n", head, re.S):
            for predicate in re.findall(r"\b[A-Z][A-Za-z]+\b", clause):
                users[predicate].add(f"{path}:{line} {name}")
    return [f"{predicate}: {len(where)} functions" for predicate, where in sorted(users.items()) if len(where) >= 3]


def travelling():
    """Three parameters and more that stand side by side in three functions and more; the longest runs."""
    runs = collections.defaultdict(set)
    for path, line, name, head, _ in functions:
        found = re.match(r"[^(]*\((.*?)\)\s*(?:->|\n|requires|ensures|$)", head, re.S)
        names = re.findall(r"(\w+):", found.group(1)) if found else []
        for size in range(3, len(names) + 1):
            for start in range(len(names) - size + 1):
                runs[tuple(names[start : start + size])].add(f"{path}:{line} {name}")
    often = {run: where for run, where in runs.items() if len(where) >= 3}
    inside = lambda small, big: any(big[i : i + len(small)] == small for i in range(len(big) - len(small) + 1))
    return [f"{', '.join(run)}: {len(where)} functions" for run, where in sorted(often.items())
            if not any(run != other and inside(run, other) and where <= often[other] for other in often)]


searches = [
    ("1 enums of the shape of Option or Result", enums),
    ("1 structs of a value and a flag, number or cursor that says whether it counts",
     lambda: structs(r"\b(cursor: Cursor\b|again: bool|run: bool|mark: u64|number: u\d+)")),
    ("1 tests of a number for 0", lambda: lines(r"\.(number|mark) (!=|==) 0|0 < \w+\.mark|refused != 0")),
    ("1 numbers of refusals and marks by constants", lambda: lines(r"\b(refusal|mark)::[A-Z]|\b(BAD_SIDE|BAD_BASE|ACCEPTED|WRONG_BUFFER)\b", r"^\s*use |pub const")),
    ("1 functions that answer a code", lambda: [
        f"{path}:{line} {name}" for path, line, name, head, _ in functions
        if re.search(r"-> (u64|u32)\b", head) and re.search(r"refus|bad_row|tag_at", name)]),
    ("1 numbers of list kinds and pointer sizes", lambda: lines(r"\b(IMAGE_LIST|LAYER_LIST|NARROW|WIDE)\b", r"^\s*use |version::WIDE|WIDE: u32")),
    ("2 functions of one shape", twins),
    ("3 loops over an index, a count or a flag", lambda: lines(r"^\s*while (?!let\b)[^?]*$")),
    ("4 values, conversions, comparisons and copies by hand", by_hand),
    ("5 facts in the requires of three functions and more", facts),
    ("5 parameters that travel together", travelling),
    ("6 buffers of a fixed size", lambda: lines(r"\[0(u8|u32|usize); ")),
    ("6 an output beside the place in it", lambda: [
        f"{path}:{line} {name}" for path, line, name, head, _ in functions
        if re.search(r"(output|text|pixels): &mut \[u8\]", head) and re.search(r"\b(to|at): usize", head)]),
    ("7 switches on a number that says which step to run", lambda: lines(r"if (kind|list|step|compression|size|row\.kind|version) == ")),
    ("8 files of answers and of invariants", answers),
    ("8 uses of the repository's own law of a choice", lambda: uses("by_cases")),
]
for title, search in searches:
    found = search()
    print(f"{len(found):4}  {title}")
    if args.list:
        for place in found:
            print(f"          {place}")
