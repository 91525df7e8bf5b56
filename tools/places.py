#!/usr/bin/env python3
"""Lists the candidate places of the seven points of docs/DESIGN-PASS.md, found by plain searches of the sources.

usage, at the top of a checkout:  python3 tools/places.py [--counts] [COMMIT]

Reads every crates/*/src/**/*.rt, of the work tree or of the commit that is named, and writes nothing. A hit is no more
than a candidate: the page judges which of them are places.
"""

import collections
import os
import re
import subprocess
import sys

# Words of one pair: what differs in such words alone is a twin.
PAIRS = [("inputs", "outputs"), ("input", "output"), ("wanted", "bought"), ("materials", "units"), ("material", "unit"),
         ("takes", "makes"), ("taken", "made"), ("first", "second"), ("drawn", "idle"), ("low", "high")]
INTEGER = r"(?:u8|u16|u32|u64|usize)"
WORD = re.compile(r"[A-Za-z_][A-Za-z_0-9]*")

Line = collections.namedtuple("Line", "file number text")


class Function:
    """A function: its name, its parameters, its answer, its clauses and its body, with the lines they stand at."""

    def __init__(self, file, number, lines):
        self.file, self.number, self.lines = file, number, lines
        self.crate = file.split("/")[1]
        self.name = re.search(r"\bfn (\w+)", lines[0]).group(1)
        self.clauses, self.body, head = [], [], []
        inside = None
        for offset, text in enumerate(lines):
            if inside is None and re.match(r"\s*(requires|ensures|decreases)\b", text):
                self.clauses.append(Line(file, number + offset, text.strip()))
            elif inside is None:
                head.append(text.strip())
                if text.rstrip().endswith("{"):
                    inside = offset
                    head[-1] = head[-1].rstrip("{").strip()
            elif offset < len(lines) - 1:
                self.body.append(Line(file, number + offset, text.strip()))
        head = " ".join(head)
        self.answer = head.rsplit("->", 1)[1].strip(" ;") if "->" in head else ""
        inner = re.search(r"\((.*)\)", head.split("->")[0])
        self.parameters = [p for p in re.findall(r"(\w+: [^:]+?)(?:,\s*(?=\w+:)|,?\s*$)", inner.group(1))] if inner else []
        self.code = " ".join(without_comment(x.text) for x in self.body)

    def place(self):
        return Line(self.file, self.number, self.lines[0].strip())


def without_comment(text):
    return re.sub(r"(^|\s)//.*", "", text)


def sources(commit):
    """Each source file with its lines."""
    if commit is None:
        paths = sorted(os.path.join(folder, name) for folder, _, names in os.walk("crates") for name in names)
    else:
        paths = subprocess.run(["git", "ls-tree", "-r", "--name-only", commit, "crates"], check=True,
                               capture_output=True, text=True).stdout.split("\n")
    for path in paths:
        if re.fullmatch(r"crates/\w+/src/.*\.rt", path):
            if commit is None:
                with open(path, encoding="utf-8") as file:
                    yield path, file.read().splitlines()
            else:
                yield path, subprocess.run(["git", "show", f"{commit}:{path}"], check=True, capture_output=True,
                                           text=True).stdout.splitlines()


def blocks(files, head):
    """Each block that begins with a line of this form: its file, its first line, its lines up to the closing one."""
    for file, lines in files:
        for start, text in enumerate(lines):
            if re.match(head, text):
                indent = len(text) - len(text.lstrip())
                end = start
                while end < len(lines) - 1:
                    last = without_comment(lines[end]).rstrip()
                    level = len(lines[end]) - len(lines[end].lstrip()) == indent
                    if last.endswith(";") and (level or re.match(r"\s*(requires|ensures)\b", last)):
                        break
                    if level and (last.strip() == "}" or last.endswith(("}", ");")) and end == start):
                        break
                    end += 1
                yield file, start + 1, lines[start:end + 1]


class Sources:
    def __init__(self, commit):
        self.files = list(sources(commit))
        self.lines = [Line(f, i + 1, t) for f, ls in self.files for i, t in enumerate(ls)]
        visible = r"\s*(?:pub(?:\(\w+\))? )?"
        self.functions = [Function(*b) for b in blocks(self.files, visible + r"(?:const )?fn \w+")]
        self.enums = list(blocks(self.files, visible + r"enum \w+"))
        self.structs = list(blocks(self.files, visible + r"struct \w+"))

    def grep(self, pattern):
        """The lines whose code has the pattern."""
        return [Line(x.file, x.number, x.text.strip()) for x in self.lines
                if re.search(pattern, without_comment(x.text)) and "ghost " not in x.text]

    def grep_all(self, pattern):
        """The lines that have the pattern, comments too."""
        return [Line(x.file, x.number, x.text.strip()) for x in self.lines if re.search(pattern, x.text)]

    def chosen(self, wanted):
        return [f.place() for f in self.functions if wanted(f)]

    def matches(self, wanted):
        """The matches whose arms are all as wanted; an arm is the text behind its arrow."""
        found = []
        for file, number, lines in blocks(self.files, r".*\bmatch .*\{$"):
            arms = re.findall(r"=>\s*(.*?)(?:,\s*(?=[^,]*=>)|,?\s*\}?\s*;?$)", " ".join(x.strip() for x in lines[1:]))
            if arms and wanted([a.strip() for a in arms]):
                found.append(Line(file, number, lines[0].strip()))
        return found

    def fields(self, block):
        return re.findall(r"^\s*(?:pub(?:\(\w+\))? )?(\w+): (.*),$", "\n".join(
            x for x in block[2] if "ghost " not in x), re.M)

    def structs_where(self, wanted):
        return [Line(b[0], b[1], b[2][0].strip()) for b in self.structs if wanted(self.fields(b))]


def groups(items, key, least=2):
    """The items that share a key, at least so many."""
    sharing = collections.OrderedDict()
    for item in items:
        k = key(item)
        if k is not None:
            sharing.setdefault(k, []).append(item)
    return [(k, g) for k, g in sharing.items() if len(g) >= least]


def listed(found, name=lambda key: ""):
    """The groups as lines, each line with the number of its group."""
    return [Line(x.file, x.number, f"[group {i}{name(k)}] {x.text}")
            for i, (k, g) in enumerate(found, 1) for x in (y.place() if isinstance(y, Function) else y for y in g)]


def shape(text):
    """Code with every name, number and text made the same."""
    text = re.sub(r'b?"[^"]*"|b?\'[^\']*\'', "TEXT", text)
    text = re.sub(r"\b\d[\d_]*(?:" + INTEGER + r")?\b", "0", text)
    keep = {"if", "else", "for", "in", "while", "let", "mut", "match", "return", "Some", "None", "Ok", "Err", "as", "TEXT"}
    return WORD.sub(lambda m: m.group() if m.group() in keep else "n", text)


def paired(text):
    """Text in which the second word of each pair is the first."""
    for one, other in PAIRS:
        text = re.sub(rf"(?i)(?<![a-z]){other}(?![a-z])", one, text)
    return text.lower()


def value_of(text):
    found = re.search(r"\bconst (\w+): [^=]+ = (\d[\d_]*|b'.');", text)
    return found.group(2) if found else None


def neighbours(s):
    """Lines that are the line before them, but for the words of a pair."""
    found = []
    for before, line in zip(s.lines, s.lines[1:]):
        one, other = without_comment(before.text).strip(), without_comment(line.text).strip()
        if len(one) > 3 and one != other and "use " not in one and paired(one) == paired(other):
            found.append(Line(line.file, line.number, other))
    return found


def repeated_blocks(s):
    found = groups([b for b in blocks(s.files, r"\s*.*\b(?:match|for|while|if) .*\{$") if len(b[2]) >= 5],
                   lambda b: shape(" ".join(without_comment(x).strip() for x in b[2])))
    return listed([(k, [Line(f, n, ls[0].strip()) for f, n, ls in g]) for k, g in found])


def loops_with(s, pattern):
    """The `for` and `while` loops whose body has the pattern."""
    return [Line(f, n, ls[0].strip()) for f, n, ls in blocks(s.files, r"\s*(?:for|while) .*\{$")
            if re.search(pattern, "\n".join(without_comment(x) for x in ls[1:]))]


def unwrapped(text):
    """Text without brackets that are not matched in it, and without a pair around the whole of it."""
    while text.startswith("(") and text.count("(") > text.count(")"):
        text = text[1:]
    while text.endswith(")") and text.count(")") > text.count("("):
        text = text[:-1]
    if text.startswith("(") and text.endswith(")"):
        inner = text[1:-1]
        if all(inner[:i].count("(") >= inner[:i].count(")") for i in range(len(inner))):
            return unwrapped(inner)
    return text


def facts(function):
    """The facts of a function's clauses, each with its parameters' names and its numbers made the same."""
    names = {p.split(":")[0] for p in function.parameters}
    for clause in function.clauses:
        inner = re.search(r"\{(.*)\}", clause.text)
        kind = clause.text.split()[0]
        for part in re.split(r" × ", inner.group(1)) if inner else []:
            part = re.sub(r"\b\d+\b", "N", unwrapped(part.strip()))
            yield kind + " " + WORD.sub(lambda m: "_" if m.group() in names else m.group(), part), function


def shared_facts(s):
    found = groups([x for f in s.functions for x in dict.fromkeys(facts(f))], lambda x: (x[1].crate, x[0]), 3)
    return [Line(f.file, f.number, f"[{k[1]}: {len(g)} functions of {k[0]}] {f.name}") for k, g in found for _, f in g]


def travelling(s):
    """Parameters that stand together in three or more functions of a crate, the most that do so in the same functions."""
    together = collections.OrderedDict()
    for f in s.functions:
        ps = [p for p in f.parameters if not p.startswith("rt:")]
        for i, p in enumerate(ps):
            for q in ps[i + 1:]:
                together.setdefault((f.crate,) + tuple(sorted((p, q))), []).append(f)
    sets = collections.OrderedDict()
    for (_, p, q), fs in together.items():
        if len(fs) >= 3:
            sets.setdefault(tuple(fs), dict()).update({p: 1, q: 1})
    return [Line(f.file, f.number, f"[{', '.join(ps)}: {len(fs)} functions] {f.name}") for fs, ps in sets.items() for f in fs]


def same_lines(s):
    found = groups([(f, x) for f in s.functions for x in f.body if re.match(r"let |\w.*\?;$", x.text)],
                   lambda y: (y[0].crate, y[1].text), 3)
    return listed([(k, [x for _, x in g]) for k, g in found])


def arrays(fields):
    return [re.sub(r".*; (\w+)\]", r"\1", t) for _, t in fields if re.match(r"\[.*; \w+\]$", t)]


def lengths(function):
    return re.findall(r"; (\w+)\]", " ".join(function.parameters))


def variants(block):
    return tuple(re.findall(r"^\s+(\w+)(?:\(.*\))?,$", "\n".join(block[2]), re.M))


CALL = r"(?:[\w:*.()]+?)\(([^()]*)\)\??"


def same_calls(arms):
    calls = [re.fullmatch(CALL, a) for a in arms]
    return len(arms) > 1 and all(calls) and len({c.group(1) for c in calls}) == 1


CONSTANT = r"(?:true|false|None|b?'.*?'|\"[^\"]*\"|\d+|[A-Z]\w*(?:::\w+)?|Some\((?:true|false|\w+)\)|Err\([\w:]+\)|Ok\(\w+\)|Ok\(\(\)\))"

POINTS = [
    ("1. Own shapes of absence and failure; flags, numbers and zeros for kinds", [
        ("every enum", lambda s: [Line(b[0], b[1], b[2][0].strip()) for b in s.enums]),
        ("structs with a flag beside fields that are no flags", lambda s: s.structs_where(
            lambda fs: any(t == "bool" for _, t in fs) and any("bool" not in t for _, t in fs))),
        ("fields, parameters and variants of type bool", lambda s: s.grep(r"\w+: bool\b|\(.*, bool\b")),
        ("functions that answer a constant number or flag", lambda s: s.chosen(
            lambda f: re.fullmatch(r"\d+|true|false", f.code.strip()) is not None)),
        ("tables asked at a constant place, or of as many places as there are kinds",
         lambda s: s.grep(r"[\w)]\[\d+\]|\bstruct \w+\(\[|; 13\]")),
        ("numbers and texts that stand for kinds: arms from or to one, the number of a refusal",
         lambda s: s.grep(r'(?:^|\| |\s)(?:\d+|"[^"]*") =>|=> \d+,|\.number\(\)')),
        ("letters that stand for kinds", lambda s: s.grep(
            r"\bconst \w+: u8 = |[!=]= (?:b'[A-Z-]'|[A-Z]{4,}\b(?!_))|^\s*b'[A-Z-]'.*=>|^\s*b'[A-Z-]'$|=> b'[A-Z-]'|matches!\(\w+, b'")),
        ("zeros that stand for absence, in code", lambda s: s.grep(r"[!=]= 0\b|> 0\b|unwrap_or\(0\)|_ => 0,|\(0, 0\)")),
        ("zeros that stand for absence, in comments", lambda s: s.grep_all(r"//.*\b0 (?:where|while|for|in each|is)\b|//.*\bis 0\b")),
        ("an absence of nothing: Option<()>", lambda s: s.grep(r"Option<\(\)>")),
    ]),
    ("2. Twins", [
        ("functions with the same body but for names, numbers and texts", lambda s: listed(groups(
            [f for f in s.functions if f.body], lambda f: shape(f.code)))),
        ("blocks of three or more lines that stand in several places, but for names, numbers and texts", repeated_blocks),
        ("functions of one file with the same name but for a pair of words", lambda s: listed([
            g for g in groups(s.functions, lambda f: (f.file, paired(f.name))) if len({f.name for f in g[1]}) > 1])),
        ("functions of the same name in several crates", lambda s: listed([
            (k, g) for k, g in groups([f for f in s.functions if f.name != "main" and "self" not in f.lines[0]],
                                      lambda f: f.name) if len({f.crate for f in g}) > 1])),
        ("enums with the same name, or with as many variants that hold nothing", lambda s: listed(
            [(k, [Line(b[0], b[1], b[2][0].strip()) for b in g]) for k, g in groups(s.enums, lambda b: (
                len(variants(b)), "(" in "".join(x for x in b[2] if "//" not in x and "derive" not in x)))])),
        ("structs with fields of the same types", lambda s: listed(
            [(k, [Line(b[0], b[1], b[2][0].strip()) for b in g]) for k, g in groups(
                s.structs, lambda b: tuple(sorted(re.sub(r"\d+|\b[A-Z_]{2,}\b", "N", t) for _, t in s.fields(b))) or None)])),
        ("lines that repeat the line before them, but for a pair of words", neighbours),
        ("constants of the same value", lambda s: listed(groups(
            s.grep(r"\bconst \w+: "), lambda x: value_of(x.text)), lambda k: f", {k}")),
    ]),
    ("3. Loops that count", [
        ("loops over a range", lambda s: s.grep(r"\bfor \w+ in .*\.\.")),
        ("loops over places and items together", lambda s: s.grep(r"\.enumerate\(\)")),
        ("while", lambda s: s.grep(r"\bwhile\b")),
        ("loops whose body counts by one", lambda s: loops_with(s, r"[+-]= 1;|(\w+) = \1\.saturating_add\(1\)")),
        ("loops that answer a truth: any, all", lambda s: loops_with(s, r"return (?:true|false);")),
        ("loops over a slice that carry a value from item to item",
         lambda s: [x for x in loops_with(s, r"(?m)^\s*(?:last|above|\w*count|content|rest|material|number) (?:[+/]?= )")]),
    ]),
    ("4. Equality, order, copying, conversion, printing by hand", [
        ("matches whose arms are all constants", lambda s: s.matches(
            lambda arms: all(re.fullmatch(CONSTANT + r"|\w+", a) for a in arms))),
        ("arms that hand a value on", lambda s: s.grep(r"\b(Ok|Err|Some)\((\w*|\(\))\) => \1\(\2\)|Err\(\w+\) => Err\(|None => None")),
        ("what is printed of a refusal or of a mark", lambda s: s.grep(r"refused with|\bword\(|: done|was refused")),
        ("matches!", lambda s: s.grep(r"\bmatches!\(")),
        ("an absence turned into a refusal by let .. else", lambda s: [
            Line(f, n, ls[0].strip()) for f, n, ls in blocks(s.files, r"\s*let (?:Some|Ok)\(.* else \{$")]),
        ("a condition turned into Some or None, Ok or Err, or into a text", lambda s: loops_free(s)),
        ("conversions with as or from, an index aside", lambda s: s.grep(
            r"(?<![\[\w])(?:[\w.)]+) as " + INTEGER + r"\b(?![^\[]*\])|\b" + INTEGER + r"::from\(")),
        ("equality of several answers, one after another", lambda s: s.grep(r"\.\w+\([^()]*\) [!=]= \w+\.\w+\(")),
    ]),
    ("5. Facts and parameters that travel together", [
        ("facts in the clauses of three or more functions of a crate", shared_facts),
        ("parameters that stand together in three or more functions of a crate", travelling),
        ("the same line in three or more functions of a crate", same_lines),
    ]),
    ("6. Buffers with a length beside them, parallel arrays, arenas", [
        ("structs of an array or a slice with a count beside it", lambda s: s.structs_where(lambda fs: any(
            re.search(r"\[.*\]", t) for _, t in fs) and any(re.fullmatch(INTEGER, t) for _, t in fs))),
        ("structs of two or more arrays of the same length", lambda s: s.structs_where(
            lambda fs: any(n > 1 for n in collections.Counter(arrays(fs)).values()))),
        ("functions that are lent two or more arrays of the same length", lambda s: s.chosen(
            lambda f: any(n > 1 for n in collections.Counter(lengths(f)).values()))),
        ("arrays asked at a number that another array or field holds", lambda s: s.grep(
            r"\[\*?[\w.]+(?:\[\w+(?: \+ \w+)?\])? as usize\]|\b(?:heads|links|entries)\[")),
        ("arrays of fixed length as buffers", lambda s: s.grep(r"= \[[^\]]+; \w+\];|&mut \[[^\]]+; \w+\]\)")),
        ("texts that are read as bytes", lambda s: s.grep(r"as_bytes\(\)|\b(?:text|letters|units): &\[u8\]")),
        ("loops that search a list by hand", lambda s: loops_with(s, r"\breturn (?!Err)")),
    ]),
    ("7. Switches on which step to run", [
        ("matches whose arms all call with the same arguments", lambda s: s.matches(same_calls)),
        ("if and else that call alike", lambda s: alike_branches(s)),
        ("functions as values", lambda s: s.grep(r":\s*&?fn\(|\[fn\(|dyn Fn|impl Fn|\|\w+\| ")),
    ]),
]


def branches(s):
    """Each `if .. else ..` with two one-line branches: its line, its condition, the two branches."""
    for file, lines in s.files:
        text = "\n".join(without_comment(x) for x in lines)
        for m in re.finditer(r"\bif ([^{}]*?)\s*\{\s*([^{};]*?)\s*\} else \{\s*([^{};]*?)\s*\}", text):
            yield Line(file, text.count("\n", 0, m.start()) + 1, lines[text.count("\n", 0, m.start())].strip()), m.groups()


def loops_free(s):
    return [line for line, (_, one, other) in branches(s)
            if re.fullmatch(r"None|Err\(.*\)|Some\(.*\)|Ok\(.*\)|b?\"[^\"]*\"|b?'.*'", other) and one]


def alike_branches(s):
    return [line for line, (_, one, other) in branches(s) if "(" in one and shape(one) == shape(other)
            and not re.match(r"(?:Some|Ok|Err)\(", one)]


def main():
    words = [w for w in sys.argv[1:] if w != "--counts"]
    s = Sources(words[0] if words else None)
    for point, searches in POINTS:
        results = [(title, search(s)) for title, search in searches]
        total = len({(x.file, x.number) for _, hits in results for x in hits})
        print(f"\n## {point}: {total} lines")
        for title, hits in results:
            print(f"\n### {title}: {len(hits)}")
            if "--counts" not in sys.argv:
                for x in hits:
                    print(f"{x.file}:{x.number}: {x.text}")


if __name__ == "__main__":
    main()
