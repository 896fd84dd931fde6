#!/usr/bin/env python3
"""Writes the line of a file of proofs that says who needs it, `-- Needed by ..`, where its first lines have one.

With --check it writes nothing, and fails where such a line isn't so any more.
"""
import re
import sys
from collections import defaultdict
from pathlib import Path

ROOT = Path(__file__).resolve().parent.parent
CRATES = ROOT / "crates"
MARK = "-- Needed by "
WIDTH = 140
# how many names a part of the line has at most, from the longest line to the shortest
MOST_NAMES = (6, 4, 3, 2, 1, 0)

USE = re.compile(r"^\s*(?:pub )?use (Rattle\.\w+\.proofs\.[\w.]+?)(?:\.\{.*\}| as [\w-]+)?$", re.M)
USING = re.compile(r"using\(([^)]*)\)")
# files of a function's own proof, in a folder that is named as the function
OF_FUNCTION = ("Answers.antt", "Invariants.antt")


def order():
    """The crates, from the lowest on."""
    lines = (ROOT / "crates.txt").read_text().splitlines()
    return [line.split(":")[0] for line in lines if line and not line.startswith("#")]


def users():
    """The files that take lemmas of a module."""
    found = defaultdict(set)
    for path in CRATES.glob("*/proofs/**/*.antt"):
        for module in USE.findall(path.read_text()):
            found[module].add(path)
    for path in CRATES.glob("*/src/**/*.rt"):
        for names in USING.findall(path.read_text()):
            for name in names.split(","):
                parts = name.strip().split("::")
                if "proofs" in parts:
                    crate = path.relative_to(CRATES).parts[0] if parts[0] == "crate" else parts[0]
                    found[".".join(["Rattle", crate, *parts[1:-1]])].add(path)
    return found


def in_rust(name):
    """A type's name as code has it: its folder has `+` where that has angle brackets."""
    parts = name.split("+")
    return "<".join(parts) + ">" * (len(parts) - 1)


def listed(names):
    return names[0] if len(names) == 1 else ", ".join(names[:-1]) + " and " + names[-1]


def said(path, users_of, crates):
    """Who needs a file: functions and files of its crate, and other crates. None where nobody does."""
    crate = path.relative_to(CRATES).parts[0]
    functions, code, files, above = set(), set(), set(), set()
    module = "Rattle." + str(path.relative_to(CRATES).with_suffix("")).replace("/", ".")
    for user in users_of[module]:
        other, kind, *parts = user.relative_to(CRATES).parts
        if other != crate:
            above.add(other)
        elif kind == "src":
            code.add(user.stem)
        elif user.name in OF_FUNCTION:
            names = parts[1:-1] or parts[:-1]
            functions.add("::".join(in_rust(name) for name in names))
        elif user.name != "Lib.antt":
            files.add(".".join(parts).removesuffix(".antt"))
    functions = [f"`{name}`" for name in sorted(functions)] + [f"the code of `{name}`" for name in sorted(code)]
    above = sorted(above, key=crates.index)
    for most in MOST_NAMES:
        parts = []
        if functions:
            parts.append(listed(functions) if len(functions) <= most else f"{len(functions)} functions of this crate")
        if files:
            parts.append(listed(sorted(files)) if len(files) <= most else f"{len(files)} files here")
        if above:
            many = f"{len(above)} crates above"
            parts.append(("crate " if len(above) == 1 else "crates ") + listed(above) if len(above) <= most else many)
        line = MARK + "; ".join(parts) + "."
        if not parts or len(line) <= WIDTH:
            break
    return line if parts else None


def main(check):
    users_of, crates, wrong = users(), order(), 0
    for path in sorted(CRATES.glob("*/proofs/**/*.antt")):
        lines = path.read_text().split("\n")
        for at, line in enumerate(lines):
            if not line.startswith("--"):
                break
            if line.startswith(MARK):
                now = said(path, users_of, crates)
                if now != line and check:
                    wrong += 1
                    print(f"{path.relative_to(ROOT)}:{at + 1}: {now or 'nobody needs it'}")
                elif now != line:
                    lines[at : at + 1] = [now] if now else []
                    path.write_text("\n".join(lines))
                break
    return 1 if wrong else 0


if __name__ == "__main__":
    sys.exit(main("--check" in sys.argv[1:]))
