#!/usr/bin/env python3
"""Spells this repository's own definitions and lemmas as today's Rattle does: words in snake case, facts and types in camel case.

usage: tools/respell.py [--check] [--fields] [FOLDER]

Run it once, right after port.py, at the top of the repository (or of FOLDER). It turns, in crates/:
  - each name in lower camel case, in specs/, in proofs/ and in the clauses and comments of src/: packetBytes becomes packet_bytes;
  - each fact that had dashes: Well-formed becomes WellFormed;
  - the definitions of specs/ in WORDS, and the fields of the records of specs/, whose dashes become underscores.
Lemmas keep the dash between their parts, as std's do. Strings, inputs, outputs and the names of Rust stay. Of the must-fail edits it
turns the names alone. It prints 'meets:' where a new name already stood in a file that has the old one; --check writes nothing,
and --fields turns the fields of records alone.
"""
import os
import re
import sys

TOKEN = re.compile(r"[^\s(){}.;,@\"«»\[\]|:`]+")
CAMEL = re.compile(r"[a-z][a-z0-9]*(?:[A-Z][a-z0-9]*)+(?:-[a-z0-9_]+)*$|[a-z][a-z0-9_]*(?:-[a-z][a-z0-9]*)*-[a-z][a-z0-9]*(?:[A-Z][a-z0-9]*)+$")
FACT = re.compile(r"[A-Z][a-z0-9]*(?:-[A-Za-z0-9]+)+$")
# A fact's name is turned only where some file declares it: a step that Rattle names after a variant has the same shape.
DECLARED = re.compile(r"^ *(?:abbrev |unfoldable |pub |data |record |mutual )*([A-Z][a-z0-9]*(?:-[A-Za-z0-9]+)+)\s*(?=[:({=])", re.M)
LOCAL = re.compile(r"[({]\s*([A-Z][a-z0-9]*(?:-[a-z][A-Za-z0-9]*)+)(?: [^(){}:]*)? :")
WORDS = {
    "a-second-before": "a_second_before",
    "making-number": "making_number",
    "new-year": "new_year",
    "refusal-number": "refusal_number",
    "set-up-number": "set_up_number",
    "settling-refusal": "settling_refusal",
    "way-number": "way_number",
    "getD-adjust": "get_or-adjust",
}
# Lemmas of proofs/ that would otherwise get the name of a definition that their file uses too.
LEMMAS = {
    "accounts/proofs/": {"takes_out": "takes-out"},
    "connector/proofs/Endings.antt": {"read_as": "read-as-answer"},
    "routing/proofs/LookUp.antt": {"best_of": "best-of"},
}
# Lemmas that begin with a type's name, which keeps its capital and its dash.
LAWS = {"All-push", "Bool-set"}
# The name of a packet's field in Interledger's own documents: it stays in comments and in strings.
PROSE = {"triggeredBy"}


def snake(name):
    return re.sub(r"(?<=[a-z0-9])([A-Z])", lambda m: "_" + m[1].lower(), name)


def camel(name):
    return "".join(p[:1].upper() + p[1:] for p in name.split("-"))


def crates_above(top):
    """Each crate with itself and the crates that name it in crates.txt."""
    above = {}
    with open(os.path.join(top, "crates.txt"), encoding="utf-8") as f:
        for line in f:
            m = re.match(r"(\w+)[^:#]*:(.*)", line)
            if m:
                for below in [m[1], *m[2].split("#")[0].split()]:
                    above.setdefault(below, set()).add(m[1])
    return above


def fields_of(text):
    """The fields with a dash of the records that the text declares."""
    found, edge = set(), None
    for line in text.split("\n"):
        indent = len(line) - len(line.lstrip())
        if re.match(r" *(?:pub )?record ", line):
            edge = indent
        elif edge is not None and line.strip() and indent <= edge:
            edge = None
        elif edge is not None:
            m = re.match(r"\s+(?:pub )?([a-z][a-z0-9_]*(?:-[a-z0-9_]+)+)(?: [^:]*)? :", line)
            if m:
                found.add(m[1])
    return found


def files(top):
    for folder, dirs, names in os.walk(os.path.join(top, "crates")):
        dirs[:] = sorted(d for d in dirs if d != "out")
        for n in sorted(names):
            if n.endswith((".rt", ".antt", ".edit")):
                yield os.path.join(folder, n)


def pieces(text, comment):
    """The text in pieces: (kind, text), where kind is code, prose or string."""
    at = 0
    for m in re.finditer(r'"(?:[^"\\\n]|\\.)*"|' + comment + r"[^\n]*", text):
        yield "code", text[at : m.start()]
        yield ("string" if m[0].startswith('"') else "prose"), m[0]
        at = m.end()
    yield "code", text[at:]


def turned(word, facts, prose, lemmas):
    if word in lemmas:
        return lemmas[word]
    if word in WORDS:
        return WORDS[word]
    if prose and word in PROSE:
        return word
    if word in facts:
        return camel(word)
    if CAMEL.match(word):
        return snake(word)
    return word


def main(argv):
    check = "--check" in argv
    alone = "--fields" in argv
    rest = [a for a in argv if a not in ("--check", "--fields")]
    top = rest[0] if rest else "."
    texts = {p: open(p, encoding="utf-8").read() for p in files(top)}
    facts = set()
    for p, t in texts.items():
        if p.endswith(".antt"):
            facts |= set(DECLARED.findall(t)) | set(LOCAL.findall(t))
    facts -= LAWS
    above, fields = crates_above(top), {}
    for p, t in texts.items():
        m = re.search(r"crates/(\w+)/specs/", p)
        if m:
            for c in above.get(m[1], {m[1]}):
                fields.setdefault(c, set()).update(fields_of(t))
    changed = 0
    for p, t in texts.items():
        comment = "(?<![^\\s])--" if p.endswith(".antt") else "//"
        out, olds, words = [], {}, set()
        of_crate = fields.get(re.search(r"crates/(\w+)/", p)[1], set())
        lemmas = {f: f.replace("-", "_") for f in of_crate}
        for part, rows in LEMMAS.items():
            if not alone and f"crates/{part}" in p and p.endswith(".antt"):
                lemmas |= rows
        for kind, piece in pieces(t, comment):
            if kind == "string" and not p.endswith(".edit"):
                out.append(piece)
                continue

            def one(m):
                prose = kind == "prose"
                if prose and m[0] in of_crate:
                    return m[0]
                w = lemmas.get(m[0], m[0]) if alone else turned(m[0], facts, prose, lemmas)
                if kind == "code":
                    words.add(m[0])
                    if w != m[0]:
                        olds[m[0]] = w
                return w

            out.append(TOKEN.sub(one, piece))
        for old, new in sorted(olds.items()):
            if new in words:
                print(f"meets: {p}: {old} becomes {new}")
        new = "".join(out)
        if new != t:
            changed += 1
            if not check:
                with open(p, "w", encoding="utf-8") as f:
                    f.write(new)
    print(f"respell: {changed} files {'would be ' if check else ''}changed; facts: {' '.join(sorted(facts))}")
    return 0


if __name__ == "__main__":
    raise SystemExit(main(sys.argv[1:]))
