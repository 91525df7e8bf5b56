#!/usr/bin/env python3
"""Brings the definitions and lemmas of this repository to snake case: `first-refusal` becomes `first_refusal`.

usage: python3 tools/snake_case.py [FOLDER]     the top of a checkout; this folder where none is given

A name is the repository's own where a file of specs/ or proofs/ declares it: as a definition, a lemma, a record's
field, a constructor or a module's parameter. The name of a goal, which a proof file answers, is not: it is made by
the toolchain, and stays as it is. Comments and strings stay too. In README.md and docs/ a name is turned where it
stands between backticks. It stops, and writes nothing, where two of these names would fall together; a line 'look:'
names a file in which a turned name is also the name of a function or of a field of src/, which is no clash by itself.
"""

import collections
import os
import re
import sys

IDENT = r"[A-Za-zΑ-Ωα-ωℓ_][\w'′·]*(?:-[\w'′·]+)*"
# a declaration at the head of a line: its words, its name, and what begins its type, its parameters or its cases
DECLARED = re.compile(r"\s*(?:(?:abbrev|unfoldable|pub|data|record|private)\s+)*(" + IDENT + r")\s*(?=[:({])")
MORE = re.compile(r"\s*((?:" + IDENT + r"\s+)+" + IDENT + r")\s*:")
GOAL = re.compile(r":\s*goal\.")
TOKEN = re.compile(r"(?<![\w'′·-])" + IDENT)


def snake(name):
    return name.replace("-", "_").replace("′", "'").replace("·", "_")


def files(top, ending):
    for folder, below, names in os.walk(os.path.join(top, "crates")):
        below[:] = sorted(x for x in below if x not in ("out", ".git"))
        for name in sorted(names):
            if name.endswith(ending):
                yield os.path.join(folder, name)


def read(path):
    with open(path, encoding="utf-8") as f:
        return f.read()


def without_comments(line, mark):
    """The line's code, and its comment."""
    at = re.search(r"(?:^|(?<=\s))" + re.escape(mark) + r".*", line)
    return (line[: at.start()], line[at.start() :]) if at else (line, "")


def own_names(top):
    found = set()
    for path in files(top, ".antt"):
        for line in read(path).split("\n"):
            code, _ = without_comments(line, "--")
            if GOAL.search(code):
                continue
            m = DECLARED.match(code)
            names = [m.group(1)] if m else []
            m = MORE.match(re.sub(r"^\s*pub\s+", "", code))
            if m:
                names += m.group(1).split()
            found.update(n for n in names if snake(n) != n)
    return found


def all_tokens(top):
    """The names that stand in code of .antt files, by crate."""
    found = collections.defaultdict(set)
    for path in files(top, ".antt"):
        for line in read(path).split("\n"):
            found[path].update(TOKEN.findall(without_comments(line, "--")[0]))
    return found


def imported(text):
    """The names that a file takes from the toolchain's libraries, which keep their spelling there."""
    found = set()
    for m in re.finditer(r"(?:^|\n)\s*(?:pub\s+|ghost\s+)*use\s+(?!Rattle\.(?!std\b|core\b))[\w.]+\.\{([^}]*)\}", text):
        found.update(TOKEN.findall(m.group(1)))
    return found


def turn(text, own):
    return TOKEN.sub(lambda m: snake(m.group(0)) if m.group(0) in own else m.group(0), text)


def turn_antt(text, own):
    out = []
    for line in text.split("\n"):
        code, comment = without_comments(line, "--")
        out.append(turn(code, own) + comment)
    return "\n".join(out)


def turn_rt(text, own):
    out = []
    for line in text.split("\n"):
        code, comment = without_comments(line, "//")
        parts = re.split(r'("(?:[^"\\]|\\.)*")', code)
        out.append("".join(p if i % 2 else turn(p, own) for i, p in enumerate(parts)) + comment)
    return "\n".join(out)


def turn_page(text, own):
    return re.sub(r"`[^`\n]+`", lambda m: turn(m.group(0), own), text)


def main(argv):
    top = argv[0] if argv else "."
    own = own_names(top)
    by_new = collections.defaultdict(set)
    for n in own:
        by_new[snake(n)].add(n)
    bad = [sorted(v) for v in by_new.values() if len(v) > 1]
    for path, tokens in all_tokens(top).items():
        for n in tokens & own:
            if snake(n) in tokens:
                bad.append([path, n, snake(n)])
    hard = [b for b in bad if len(b) == 2]
    for b in bad:
        print("falls together:" if b in hard else "look:", *b)
    if hard:
        return 1
    jobs = [(p, turn_antt) for p in files(top, ".antt")] + [(p, turn_rt) for p in files(top, ".rt")]
    pages = [os.path.join(top, "README.md")] + [os.path.join(top, "docs", f) for f in sorted(os.listdir(os.path.join(top, "docs"))) if f.endswith(".md")]
    jobs += [(p, turn_page) for p in pages if os.path.isfile(p)]
    changed = 0
    for path, how in jobs:
        old = read(path)
        theirs = imported(old) & own
        for n in sorted(theirs):
            print("kept:", path, n)
        new = how(old, own - theirs)
        if new != old:
            changed += 1
            with open(path, "w", encoding="utf-8") as f:
                f.write(new)
    print(f"{len(own)} names, {changed} files changed")
    return 0


if __name__ == "__main__":
    raise SystemExit(main(sys.argv[1:]))
