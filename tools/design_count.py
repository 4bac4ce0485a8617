#!/usr/bin/env python3
"""Counts, in src/ of every crate, the places that docs/DESIGN-PASS.md speaks of.

    tools/design_count.py [POINT] [--list]

Without --list only the counts are printed, one line for each way of looking at a point. A place that is
found is no fault: the page says of each whether it was changed or why it stays.
"""
import re
import sys
from collections import defaultdict
from pathlib import Path

ROOT = Path(__file__).resolve().parent.parent
KEYWORDS = set("""as break const continue crate else enum false fn for if impl in let loop match mod move mut pub ref
return self Self static struct super trait true type unsafe use where while dyn""".split())
TOKEN = re.compile(r'b?"(?:\\.|[^"\\])*"|b?\'(?:\\.|[^\'\\])\'|\w+|[^\s\w]')
NAME = r"[A-Za-z_]\w*"


def sources():
    for path in sorted((ROOT / "crates").glob("*/src/**/*.rt")):
        text = path.read_text()
        # no comments; the lines stay where they are
        yield path.relative_to(ROOT), re.sub(r"(?m)//.*$", "", text)


def line_of(text, at):
    return text.count("\n", 0, at) + 1


def block(text, at):
    """The text from the brace at or behind `at` up to its end."""
    start = text.index("{", at)
    depth = 0
    for i in range(start, len(text)):
        depth += {"{": 1, "}": -1}.get(text[i], 0)
        if depth == 0:
            return text[start:i + 1], i + 1
    return text[start:], len(text)


class Function:
    def __init__(self, path, text, m):
        self.path, self.line, self.name = path, line_of(text, m.start()), m.group(1)
        self.clauses, at = [], m.end()
        head_end = re.compile(r"[{;]").search(text, at)
        self.signature = text[m.start():head_end.start()]
        at = m.end()
        while True:
            c = re.compile(r"\s*(requires|ensures)\*?(?:\s+\w+)?\s*(?=\{)").search(text, at)
            b = re.compile(r"[{;]").search(text, at)
            if c and (not b or c.start() < b.start()):
                self.signature = text[m.start():c.start()] if not self.clauses else self.signature
                body, at = block(text, c.end())
                self.clauses.append((c.group(1), " ".join(body[1:-1].split())))
                continue
            if not b or text[b.start()] == ";":
                self.body = ""
            else:
                self.body, at = block(text, b.start())
            break
        self.parameters = re.findall(rf"({NAME}):\s*([^,)]+(?:\([^)]*\))?)", re.sub(r"<[^>]*>", "", self.signature))

    def shape(self):
        out = []
        for t in TOKEN.findall(self.body):
            if t in KEYWORDS:
                out.append(t)
            elif re.match(r"^\d", t):
                out.append("0")
            elif re.match(r"^b?[\"']", t):
                out.append("\"")
            elif re.match(rf"^{NAME}$", t):
                out.append("x")
            else:
                out.append(t)
        return tuple(out)

    def __str__(self):
        return f"{self.path}:{self.line} {self.name}"


def functions():
    for path, text in sources():
        for m in re.finditer(rf"\bfn ({NAME})", text):
            yield Function(path, text, m)


def grep(pattern, where=lambda path: True):
    for path, text in sources():
        if where(path):
            for m in re.finditer(pattern, text):
                yield f"{path}:{line_of(text, m.start())} {' '.join(m.group(0).split())[:90]}"


def point1():
    for path, text in sources():
        for m in re.finditer(rf"\benum ({NAME})", text):
            body, _ = block(text, m.end())
            arms = [a for a in re.split(r",\s*(?![^()]*\))", body[1:-1].strip()) if a.strip()]
            if len(arms) == 2 and any("(" in a for a in arms):
                yield "enums of two arms, one with a value", f"{path}:{line_of(text, m.start())} {m.group(1)}"
        for m in re.finditer(r"\bstruct \w+[^{;]*\{", text):
            body, _ = block(text, m.start())
            if re.search(r":\s*bool\b", body):
                yield "structs with a flag", f"{path}:{line_of(text, m.start())} {' '.join(m.group(0).split())}"
    for f in functions():
        if re.search(r"\b(way|kind|step|mode)\s*:\s*u\d+", f.signature) or re.match(r"fn (number|of)\b", f.signature):
            yield "numbers for kinds and refusals", str(f)
    for g in grep(r"0x0[CDE]\b"):
        yield "numbers of the three packet types", g


def point2():
    shapes = defaultdict(list)
    for f in functions():
        if len(f.shape()) >= 12:
            shapes[f.shape()].append(str(f))
    for group in shapes.values():
        if len(group) > 1:
            yield "groups of functions of one shape", "; ".join(group)
    bodies = defaultdict(list)
    for path, text in sources():
        for m in re.finditer(r"\bstruct (\w+)[^{;]*\{", text):
            body, _ = block(text, m.start())
            fields = tuple(sorted(re.findall(rf"(?m)^\s*(?:pub(?:\(\w+\))? )?(?!ghost)({NAME}): ([^,]+),", body)))
            if len(fields) > 1:
                bodies[fields].append(f"{path}:{line_of(text, m.start())} {m.group(1)}")
    for group in bodies.values():
        if len(group) > 1:
            yield "structs with the same fields", "; ".join(group)


def point3():
    for g in grep(r"\bfor \w+ in [^{]*\.\.[^{]*\{"):
        yield "for over a range", g
    for g in grep(r"\bfor \(\w+, [^{]*\.enumerate\(\)"):
        yield "for with enumerate", g
    for g in grep(r"\bwhile [^{]*\{"):
        yield "while", g
    for path, text in sources():
        for m in re.finditer(r"\bfor \S+ in [^{.]*\{", text):
            body, _ = block(text, m.start())
            if re.search(r"return (true|false);", body):
                yield "for that finds or tests", f"{path}:{line_of(text, m.start())} {' '.join(m.group(0).split())}"


def point4():
    for f in functions():
        if re.search(r"\bfn (same|check_same|ends_before|is_longer)", f.signature):
            yield "equality and order", str(f)
        if re.search(r"_words\b|\bfn push_", f.signature):
            yield "printing", str(f)
    for g in grep(r"Ok\(\w+\) => (Some|Ok)\(\w+\),|Err\(\w+\) => (Some\(\w+\)|return Err)|Some\(\w+\) => Ok\("):
        yield "conversions by match", g
    for g in grep(r"let (Ok|Some)\([^)]*\) = [^;{]* else \{\s*(return )?(Err|None|panic|0|\w+\()"):
        yield "let-else that gives an error of its own", g
    for g in grep(r"first: 0,\s*second: 0"):
        yield "a code made into a rejection", g


def point5():
    facts = defaultdict(set)
    pairs = defaultdict(set)
    for f in functions():
        for kind, c in f.clauses:
            if kind == "requires":
                for part in re.split(r"\) × \(|^\(|\)$", c):
                    if part:
                        facts[re.sub(r"\b(self|out|buffer|bytes|reader|row|packet|prepare|p|f|r)\b", "_", part)].add(str(f))
        names = [(n, " ".join(t.split())) for n, t in f.parameters]
        for i, a in enumerate(names):
            for b in names[i + 1:]:
                pairs[(a, b)].add(str(f))
    for c, fs in sorted(facts.items()):
        if len(fs) >= 3:
            yield "facts asked by three or more", f"{c}: {'; '.join(sorted(fs))}"
    for ((a, _), (b, _)), fs in sorted(pairs.items()):
        if len(fs) >= 3:
            yield "parameters together in three or more", f"{a}, {b}: {len(fs)}: {'; '.join(sorted(fs))}"


def point6():
    for path, text in sources():
        for m in re.finditer(r"\bstruct (\w+)[^{;]*\{", text):
            body, _ = block(text, m.start())
            arrays = re.findall(rf"({NAME}): (?:\[[^\]]+; \w+\]|&(?:'\w+ )?(?:mut )?\[\w+\]|Vec<)", body)
            if arrays and re.search(r": usize\b", body):
                yield "structs with a buffer and a length or place", f"{path}:{line_of(text, m.start())} {m.group(1)}"
            if len(re.findall(r": \[\w+; \w+\]", body)) > 1:
                yield "structs with two arrays", f"{path}:{line_of(text, m.start())} {m.group(1)}"
    for f in functions():
        if re.search(r"&mut \[u8\]", f.signature) and re.search(r"\bat: usize", f.signature):
            yield "functions over a buffer and a place", str(f)
    for g in grep(r"\w+\[\d\], \w+\[\d\]|digits\[\d"):
        yield "elements picked one by one", g


def point7():
    for f in functions():
        if re.search(r"\w+: bool\b", f.signature.split("->")[0]):
            yield "functions switched by a flag", str(f)
    for g in grep(r": fn\(|\[fn\(|&dyn |Box<dyn "):
        yield "tables and pointers of functions", g


def main():
    wanted = [a for a in sys.argv[1:] if a.isdigit()] or [str(i) for i in range(1, 8)]
    for p in wanted:
        found = defaultdict(list)
        for kind, place in globals()["point" + p]():
            found[kind].append(place)
        for kind, places in found.items():
            print(f"{p}. {kind}: {len(places)}")
            if "--list" in sys.argv:
                for place in places:
                    print(f"     {place}")


main()
