#!/usr/bin/env python3
"""Brings this repository's own definitions and lemmas to snake case, and its facts to upper camel case.

usage: python3 tools/port_names.py      at the top of the repository, once, right after the toolchain's own script

It goes by text. A definition such as `stateAt` becomes `state_at` in specs/, proofs/, clauses and must-fail edits. A definition
that is a fact (its value is a type) becomes as `UsualOf`. Where a lemma would fall together with its definition, it gets `_lem`.
Functions of src/, strings, and names that are not words of antt keep their spelling.
"""
import os
import re

CAMEL = re.compile(r"(?<![\w'])[a-z][a-z0-9']*(?:_[a-z0-9']+)*[A-Z][\w']*")
# units, in comments
KEPT = {"kW", "mL"}
SPECIAL = {"withoutCR": "without_cr"}
# facts: definitions of specs/Usual.antt of usual_rows whose values are types
FACTS = {"timeOf": "TimeOf", "powerOf": "PowerOf", "powersOf": "PowersOf", "end_of": "EndOf", "usualValues": "UsualValues", "usualOf": "UsualOf", "usualLater": "UsualLaterOf"}
# a lemma that would have its definition's name, and the files that state or cite it
LEMMAS = {
    "asked_by": ["arguments/proofs/AskedLaws.antt", "arguments/proofs/seconds/seconds_asked/Proof.antt"],
    "after_read": ["exchange/proofs/Expected.antt"],
    "after_write": ["exchange/proofs/Expected.antt", "run_stages/proofs/StopLaws.antt", "check_machine/proofs/StopLaws.antt", "check_machine/proofs/StepLaws.antt"],
    "too_long": ["station/proofs/ContentsOrder.antt", "station/proofs/StationLaws.antt", "station/proofs/contents/contents_right/Proof.antt"],
    "row_before": ["sheet_stages/proofs/StageLaws.antt"],
    "all_read": ["sheet_stages/proofs/UpToRefused.antt", "course_work/proofs/MoveLaws.antt"],
    "one_more": ["samples/proofs/CheckLaws.antt", "samples/proofs/check/counted/Proof.antt"],
}


def snake(word):
    if word in KEPT:
        return word
    return SPECIAL.get(word) or re.sub(r"(?<=[a-z0-9'])([A-Z])", lambda m: "_" + m.group(1).lower(), word)


def renamed(text, facts):
    if facts:
        for old, new in FACTS.items():
            text = re.sub(rf"(?<![\w'.]){old}(?![\w'])", new, text)
    return CAMEL.sub(lambda m: snake(m.group(0)), text)


def outside_strings(text, change):
    parts = re.split(r'("(?:[^"\\\n]|\\.)*")', text)
    return "".join(p if i % 2 else change(p) for i, p in enumerate(parts))


def main():
    for folder, dirs, files in os.walk("crates"):
        dirs[:] = sorted(d for d in dirs if d != "out")
        for name in sorted(files):
            if not name.endswith((".antt", ".rt", ".edit")):
                continue
            path = os.path.join(folder, name)
            with open(path, encoding="utf-8") as f:
                old = f.read()
            text = old
            if name.endswith(".antt"):
                short = path[len("crates/"):]
                for lemma, where in LEMMAS.items():
                    if short in where:
                        text = re.sub(rf"(?<![\w'.]){lemma}(?![\w'-])", lemma + "_lem", text)
            facts = path.startswith("crates/usual_rows/")
            text = outside_strings(text, lambda t: renamed(t, facts))
            if text != old:
                with open(path, "w", encoding="utf-8") as f:
                    f.write(text)


if __name__ == "__main__":
    main()
