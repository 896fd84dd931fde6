#!/usr/bin/env python3
"""Tries each wrong body CRATE/NAME.edit of this folder on a copy of its crate: run.py [CRATE..]. They are edits like those in a crate's
must-fail folder, which the gate tries; for all of these it has no time. The last line is 'N passed, M failed'.

run.py --check only looks whether each can be applied: that its file is there, and each old text stands in it once. The gate does that."""
import pathlib
import re
import shutil
import subprocess
import sys
import tempfile

HERE = pathlib.Path(__file__).resolve().parent
ROOT = HERE.parent.parent


def why_not(edit):
    """Why an edit can't be applied, if it can't."""
    file, found = None, 0
    for line in edit.read_text(encoding="utf-8").splitlines():
        if line.startswith("file: "):
            file = ROOT / "crates" / edit.parent.name / line[len("file: "):]
            if not file.is_file():
                return f"there is no file {file.relative_to(ROOT)}"
        elif line.startswith("old: "):
            found += 1
            if not file or file.read_text(encoding="utf-8").count(line[len("old: "):]) != 1:
                return f"this doesn't stand there once: {line[len('old: '):]}"
    return None if found else "it has no old text"


def check():
    """Whether each edit can be applied."""
    reasons = {edit: why_not(edit) for edit in sorted(HERE.glob("*/*.edit"))}
    for edit, reason in reasons.items():
        if reason:
            print(f"{edit.relative_to(ROOT)}: {reason}", file=sys.stderr)
    return 1 if any(reasons.values()) or not reasons else 0


def try_all(crates):
    """Tries the edits of these crates. Whether each is refused."""
    edits = [edit for crate in crates for edit in sorted((HERE / crate).glob("*.edit"))]
    with tempfile.TemporaryDirectory(prefix="wrong-bodies-") as room:
        shutil.copytree(ROOT / "crates", f"{room}/crates", ignore=shutil.ignore_patterns("must-fail", "incremental"))
        for name in ("crates.txt", "HANDLES"):
            shutil.copy(ROOT / name, room)
        for crate in crates:
            shutil.copytree(HERE / crate, f"{room}/crates/{crate}/must-fail")
        refused = set()
        with subprocess.Popen(["rt", "must-fail", *crates], cwd=room, stdout=subprocess.PIPE, text=True, errors="replace") as run:
            for line in run.stdout:
                print(line, end="", flush=True)
                refused.update(re.findall(r"^rt: must-fail (\S+)\.edit: refused, as it must be", line))
    passed = sum(f"{edit.parent.name}/{edit.stem}" in refused for edit in edits)
    print(f"{passed} passed, {len(edits) - passed} failed")
    return 0 if edits and passed == len(edits) else 1


if __name__ == "__main__":
    words = sys.argv[1:]
    sys.exit(check() if words == ["--check"] else try_all(words or sorted(path.name for path in HERE.iterdir() if path.is_dir())))
