#!/usr/bin/env python3
"""Brings the names that this repository gave its definitions and lemmas to the spelling of today's Rattle.

usage: tools/respell.py [--names]      at the top of the repository, once, after the kit's port.py

A word is in snake case: `judgeHeader` becomes `judge_header`, and a variable of a definition or lemma likewise. Types and
modules keep their capitals. In the name of a lemma a dash stays between the names of two definitions, as in `length-be`, and
a plain word is joined by `_`, as in `put_at_before`. Names of Rattle source, of files, in strings and in running text stay:
in a comment or a page a name is turned where it stands between backticks.

With --names it only prints old and new name, one pair a line. It stops where two names would fall together.
"""
import collections
import glob
import re
import sys

WORD = r"[^\W\d][\w'\-]*"
TOKEN = re.compile(r"(?<![\w'\-])" + WORD)
CAMEL = re.compile(r"^_?[a-z][\w'\-]*[A-Z]")
DECLARED = re.compile(r"(\s*)((?:abbrev|pub|unfoldable|private)\s+)*(" + WORD + r")\s*:\s+(.*)")
# Definitions of the library that names of lemmas here begin or end with.
LIBRARY = set("length take drop get_or set sets replicate append map reverse sum min max suc".split())
# Names that would fall together with another, and what each becomes.
APART = {}


def antt_files():
    return sorted(glob.glob("crates/*/specs/**/*.antt", recursive=True) + glob.glob("crates/*/proofs/**/*.antt", recursive=True))


def declared(path):
    """The names that a file declares, each with whether it is a definition; what a proof of a function answers is left out."""
    walk = path.endswith("/Proof.antt")
    # the records of these have a field for each function of src/, by the function's name
    by_function = "/specs/OneAnswer/" in path or path.endswith("/specs/Refusals.antt")
    for line in open(path, encoding="utf-8"):
        if by_function and line.startswith("  pub "):
            continue
        m = DECLARED.match(line)
        if m and not line.lstrip().startswith("--") and not (walk and m.group(4).startswith("tie.")):
            yield m.group(3), "/specs/" in path or "abbrev" in line or "unfoldable" in line


def snake(word):
    word = re.sub(r"([a-z0-9])([A-Z])", r"\1_\2", word)
    return re.sub(r"([A-Z])([A-Z][a-z])", r"\1_\2", word).lower()


def respelled(name, words):
    """The new spelling of a name in lower case; words are the definitions, in the new spelling."""
    if name in APART:
        return APART[name]
    parts = [p if p[:1].isupper() else snake(p) for p in name.split("-")]
    out, names = parts[0], [parts[0] in words]
    # the longest run of parts that is one definition's name counts as one
    i = 1
    left = parts[0]
    while i < len(parts):
        run = next((j for j in range(len(parts), i, -1) if "_".join(parts[i:j]) in words), i + 1)
        right = "_".join(parts[i:run])
        out += ("-" if left in words and right in words else "_") + right
        left = right
        i = run
    return out


def mapping():
    kinds = collections.defaultdict(bool)
    fields = set()
    for f in antt_files():
        for name, is_definition in declared(f):
            kinds[name] |= is_definition
    words = LIBRARY | {snake(n) for n, d in kinds.items() if d and "-" not in n and n[0].islower()}
    out = {}
    for n in kinds:
        if n[0].islower() or n[0] == "_":
            new = n.replace("-", "_") if n.endswith("-spec") else respelled(n, words)
            if new in words and not kinds[n]:
                new += "_lem"
            if new != n:
                out[n] = new
    return out, kinds


def from_libraries(text):
    """The names that a file imports from modules that are not of this repository's crates."""
    own = {c.split("/")[1] for c in glob.glob("crates/*")}
    out = set()
    for m in re.finditer(r"(?m)^(?:ghost )?use ([\w.'\-]+)\.\{([^}]*)\}", text):
        path = m.group(1).split(".")
        if not (path[0] == "Rattle" and path[1] in own):
            out |= set(TOKEN.findall(m.group(2)))
    return out


def turn(text, names, own, answers, marks, every=True):
    """text with its names turned; marks says where a comment begins. Without every only names that are declared are turned."""

    def word(m):
        t = m.group(0)
        after_dot = m.start() > 0 and m.string[m.start() - 1] == "."
        if t in answers:
            return t
        if every and CAMEL.match(t) and "-" not in t:
            return APART.get(t, snake(t))
        if t in names and not (after_dot and "-" in t and own):
            return names[t]
        return t

    def comment(m):
        return re.sub(r"`[^`\n]*`", lambda q: TOKEN.sub(word, q.group(0)), m)

    lines = []
    for line in text.split("\n"):
        cut = line.find(marks) if marks else 0
        if marks and cut < 0:
            code, said = line, ""
        elif marks:
            code, said = line[:cut], line[cut:]
        else:
            code, said = "", line
        pieces = re.split(r'("(?:[^"\\]|\\.)*")', code)
        code = "".join(p if i % 2 else TOKEN.sub(word, p) for i, p in enumerate(pieces))
        lines.append(code + comment(said))
    return "\n".join(lines)


def main():
    names, kinds = mapping()
    by_new = collections.defaultdict(set)
    for o in kinds:
        by_new[names.get(o, o)].add(o)
    if "--names" in sys.argv[1:]:
        for o, n in sorted(names.items()):
            print(o, n)
        return 0
    clashes = {n: sorted(o) for n, o in by_new.items() if len(o) > 1}
    for f in antt_files() + sorted(glob.glob("crates/*/src/**/*.rt", recursive=True)):
        if not f.endswith(".antt") or f.endswith("/Proof.antt"):
            continue
        text = re.sub(r"(?m)--.*$", "", open(f, encoding="utf-8").read())
        # names of fields, of modules and of what an OneAnswer record says stand apart from names of values
        text = re.sub(r"\.«?" + WORD + r"»?|«?" + WORD + r"»?(?=\.| =)|(?m:^  pub .*? :)", " ", text)
        seen = set(TOKEN.findall(text))
        for t in seen - from_libraries(text):
            new = names.get(t) or (APART.get(t, snake(t)) if CAMEL.match(t) and "-" not in t else t)
            if new != t and new in seen and new not in names:
                clashes.setdefault(f, []).append((t, new))
    if clashes:
        for where, which in clashes.items():
            print("names that fall together:", where, which)
        return 1
    for f in antt_files():
        text = open(f, encoding="utf-8").read()
        walk = f.endswith("/Proof.antt")
        answers = from_libraries(text)
        if walk:
            answers |= {m.group(3) for m in map(DECLARED.match, text.split("\n")) if m and m.group(4).startswith("tie.")}
        new = turn(text, names, walk, answers, "--")
        if new != text:
            open(f, "w", encoding="utf-8").write(new)
    for f in sorted(glob.glob("crates/*/src/**/*.rt", recursive=True)):
        text = open(f, encoding="utf-8").read()
        new = turn(text, names, False, from_libraries(text), "//")
        if new != text:
            open(f, "w", encoding="utf-8").write(new)
    for f in sorted(glob.glob("crates/*/must-fail/*.edit")):
        text = open(f, encoding="utf-8").read()
        new = "\n".join(turn(l, names, False, set(), "//", False) if re.match(r"(old|new):", l) else turn(l, names, False, set(), None, False) for l in text.split("\n"))
        if new != text:
            open(f, "w", encoding="utf-8").write(new)
    for f in ["README.md"] + sorted(glob.glob("docs/*.md")):
        text = open(f, encoding="utf-8").read()
        new = turn(text, names, False, set(), None, False)
        if new != text:
            open(f, "w", encoding="utf-8").write(new)
    return 0


if __name__ == "__main__":
    raise SystemExit(main())
