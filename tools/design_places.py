#!/usr/bin/env python3
"""Counts the places of each point of docs/DESIGN-PASS.md in crates/*/src.

    python3 tools/design_places.py            how many places each point has
    python3 tools/design_places.py POINT      the places of one point, a line each

A place is found by its form alone; whether it stays, the page says.
"""
import collections
import glob
import os
import re
import sys

WORD = r"[A-Za-z_]\w*"


def sources():
    for path in sorted(glob.glob("crates/*/src/**/*.rt", recursive=True)):
        with open(path) as file:
            lines = file.read().split("\n")
        # a comment is no code
        code = "\n".join(re.sub(r"//.*", "", line) for line in lines)
        # nor is a clause
        code = re.sub(r"(?m)^\s*(requires|ensures)\b.*$", "", code)
        code = re.sub(r"(?m)^ghost use .*$", "", code)
        yield path[len("crates/"):].replace("/src/", "/"), code


def blocks(code, kind):
    """Each struct or enum, with the lines of its body."""
    for m in re.finditer(r"(?m)^(?:pub(?:\(crate\))? )?%s (%s)[^\n{]*\{\n(.*?)^\}" % (kind, WORD), code, re.S):
        yield m.group(1), [line.strip() for line in m.group(2).split("\n") if line.strip()]


def functions(code):
    """Each function, with its parameters and its body."""
    for m in re.finditer(r"(?m)^(?:    )?(?:pub(?:\(crate\))? )?(?:const )?fn (%s)(?:<[^(]*>)?\(([^{]*?)\)(?: ->[^{]*)?\s*\{\n(.*?)^\}" % WORD, code, re.S):
        parameters = [p.strip() for p in re.split(r",(?![^<(]*[>)])", m.group(2)) if p.strip()]
        yield m.group(1), parameters, m.group(3)


def own_options(path, code):
    for name, lines in blocks(code, "enum"):
        lines = [line.rstrip(",") for line in lines if not line.startswith("#")]
        holds = [line for line in lines if "(" in line]
        refusals = [line for line in lines if re.search(r"\((Refusal|\w*Fault)\)", line)]
        if 2 <= len(lines) <= 3 and (len(holds) == 1 or refusals):
            yield "%s enum %s" % (path, name)
    for name, lines in blocks(code, "struct"):
        for line in lines:
            m = re.match(r"(?:pub(?:\(crate\))? )?(%s): (.*)," % WORD, line)
            if not m or len(lines) < 2:
                continue
            if m.group(2) == "bool" or m.group(1) in ("verdict", "sharing", "answer"):
                yield "%s struct %s, field %s" % (path, name, m.group(1))
    for name, parameters, body in functions(code):
        if re.search(r"(?m)^\s*(\d+|0) ?=> |^\s*return \d+;", body) and len(re.findall(r"return \d+;|=> \d+,", body)) >= 3:
            yield "%s fn %s, numbers for kinds" % (path, name)


def loops(path, code):
    for name, _, body in functions(code):
        for m in re.finditer(r"(?m)^\s*while .*$", body):
            yield "%s fn %s, %s" % (path, name, m.group(0).strip().rstrip("{").strip())


def by_hand(path, code):
    for name, parameters, body in functions(code):
        only = body.strip()
        arms = only.split("\n")
        if re.match(r"match \w+ \{$", arms[0]) and all(re.match(r"\s*[\w:|() ]+ => [\w:()]+,$", arm) for arm in arms[1:-1]):
            yield "%s fn %s, a conversion by match" % (path, name)
        if re.search(r"a\[i\] != b\[i\]|\.len\(\) != \w+\.len\(\)", body):
            yield "%s fn %s, an equality" % (path, name)
        if name in ("lesser", "smaller", "larger", "over", "over_u32", "wide", "byte_u32", "byte_u64"):
            yield "%s fn %s, an order or a cast" % (path, name)
        if len(re.findall(r"\b(?:say|number)\(", body)) >= 2:
            yield "%s fn %s, printing" % (path, name)


def with_length(path, code):
    for name, lines in blocks(code, "struct"):
        for line in lines:
            m = re.match(r"(?:pub(?:\(crate\))? )?(%s): \[u(?:8|32|64); \d+\]," % WORD, line)
            if m and any(re.match(r"(?:pub(?:\(crate\))? )?(len|size|count|\w+count|points): ", other) for other in lines):
                yield "%s struct %s, field %s" % (path, name, m.group(1))
    for name, parameters, _ in functions(code):
        names = [p.split(":")[0].strip() for p in parameters]
        arrays = [p for p in parameters if re.search(r": (?:&?(?:mut )?)?\[u8; \d+\]$", p)]
        if arrays and any(n in ("len", "size") or n.endswith("_len") for n in names):
            yield "%s fn %s, parameters %s" % (path, name, ", ".join(names))
        slices = [p for p in parameters if re.search(r": &(?:mut )?\[u(?:8|32|64)\]$", p)]
        if len(slices) >= 3:
            yield "%s fn %s, %d slices side by side" % (path, name, len(slices))


def steps(path, code):
    for name, _, body in functions(code):
        only = body.strip()
        if re.search(r"(?m)^\s*match (stage|phase|reading|event|why|place|action|column)\b", body):
            arms = len(re.findall(r"=>", body))
            if arms >= 4:
                yield "%s fn %s, %d arms" % (path, name, arms)


def together():
    """Three parameters that stand side by side in three functions or more."""
    seen = collections.defaultdict(list)
    for path, code in sources():
        for name, parameters, _ in functions(code):
            for i in range(len(parameters) - 2):
                seen[tuple(parameters[i:i + 3])].append("%s fn %s" % (path, name))
    for triple, places in sorted(seen.items()):
        if len(places) >= 3:
            yield "(%s) in %d functions: %s" % (", ".join(triple), len(places), "; ".join(places))


def twins():
    """A function or a type whose name stands in two files or more, or whose body does."""
    named = collections.defaultdict(list)
    bodies = collections.defaultdict(list)
    for path, code in sources():
        for kind in ("struct", "enum"):
            for name, lines in blocks(code, kind):
                named["%s %s" % (kind, name)].append(path)
        for name, _, body in functions(code):
            named["fn %s" % name].append(path)
            shape = re.sub(r"\b(u8|u16|u32|u64|usize|\d[\d_]*)\b", "_", re.sub(r"\s+", " ", body))
            if len(shape) > 60:
                bodies[shape].append("%s fn %s" % (path, name))
    for name, paths in sorted(named.items()):
        if len(paths) >= 2 and name != "fn main":
            yield "%s in %s" % (name, ", ".join(paths))
    for _, places in sorted(bodies.items()):
        if len(places) >= 2:
            yield "one body: %s" % "; ".join(places)


def answers():
    for path in sorted(glob.glob("crates/*/proofs/**/Answers.antt", recursive=True)):
        with open(path) as file:
            for m in re.finditer(r"(?m)^(?:abbrev )?pub (\S+) : goal\.", file.read()):
                yield "%s %s" % (path[len("crates/"):], m.group(1))


def each(find):
    return [place for path, code in sources() for place in find(path, code)]


POINTS = [
    ("1 own Option or Result, flags beside a value, numbers for kinds", lambda: each(own_options)),
    ("2 twins", lambda: list(twins())),
    ("3 loops by while", lambda: each(loops)),
    ("4 equality, order, conversion, printing by hand", lambda: each(by_hand)),
    ("5 parameters that travel together", lambda: list(together())),
    ("6 buffers with a length, slices side by side", lambda: each(with_length)),
    ("7 a switch on which step to run", lambda: each(steps)),
    ("8 answers in proofs", lambda: list(answers())),
]


def main():
    os.chdir(os.path.join(os.path.dirname(os.path.abspath(__file__)), ".."))
    if len(sys.argv) == 1:
        for title, find in POINTS:
            print("%5d  %s" % (len(find()), title))
        return
    for title, find in POINTS:
        if title.startswith(sys.argv[1]):
            print("\n".join(find()))


main()
