#!/usr/bin/env python3
"""Takes the library's `if◌then◌else◌` in the place of this repository's own, which said the same.

usage: python3 tools/port_if.py      at the top of the repository, once

`rt ci` refuses a definition under a name of the library's. The own definition goes from crates/rules/specs/Numbers.antt.
"""
import os
import re

WORD = "if◌then◌else◌"
OWN = re.compile(r"^(\s*(?:pub |ghost )*use Rattle\.rules\.specs\.Numbers\.)\{([^}]*)\}(;?)$", re.M)


def turned(text, is_antt):
    m = OWN.search(text)
    if not m or WORD not in [n.strip() for n in m.group(2).split(",")]:
        return text
    rest = [n.strip() for n in m.group(2).split(",") if n.strip() != WORD]
    line = f"{m.group(1)}{{{', '.join(rest)}}}{m.group(3)}" if rest else None
    text = text[: m.start()] + (line if line else "\0") + text[m.end() :]
    text = text.replace("\0\n", "")
    # beside what the file takes of the library already, else in a line of its own
    prelude = re.search(r"^(\s*(?:ghost )?use Rattle\.std\.specs\.Prelude\.)\{([^}]*)\}", text, re.M)
    if prelude:
        return text[: prelude.end() - 1] + ", " + WORD + text[prelude.end() - 1 :]
    first = re.search(r"^(?:ghost )?use ", text, re.M)
    ghost, end = ("", "") if is_antt else ("ghost ", ";")
    return text[: first.start()] + f"{ghost}use Rattle.std.specs.Prelude.{{{WORD}}}{end}\n" + text[first.start() :]


def main():
    for folder, dirs, files in os.walk("crates"):
        dirs[:] = sorted(d for d in dirs if d != "out")
        for name in sorted(files):
            if not name.endswith((".antt", ".rt")):
                continue
            path = os.path.join(folder, name)
            with open(path, encoding="utf-8") as f:
                old = f.read()
            text = turned(old, name.endswith(".antt"))
            if path == "crates/rules/specs/Numbers.antt":
                text = re.sub(r"infix 5 if◌then◌else◌\nabbrev pub if◌then◌else◌ :[^\n]*\nif true [^\n]*\nif false [^\n]*\n\n", "", text)
                text = re.sub(r"(use Rattle\.std\.specs\.Prelude\.\{[^}]*)\}", rf"\1, {WORD}}}", text, count=1)
            if text != old:
                with open(path, "w", encoding="utf-8") as f:
                    f.write(text)


if __name__ == "__main__":
    main()
