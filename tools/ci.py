#!/usr/bin/env python3
"""Runs `rt ci`, one check a processor, and says what it says. Where the kit keeps what was proved, it runs twice: over a copy without the
must-fail edits, which proves all there is, and then here, where the edits are tried; so what each took is known. What it took stands in
bin/ci-seconds then, in processor seconds: of proofs and of edits, or of both in one. Fails where a run fails, or where a must-fail edit
wasn't tried or is bad: one that can't be applied or doesn't compile shows nothing, and `rt ci` of some kits passes it over. Such edits are
named last."""
import os
import pathlib
import re
import resource
import shutil
import subprocess
import sys
import tempfile

ROOT = pathlib.Path(__file__).resolve().parent.parent
# how much memory there has to be for each check, in GiB: most of the time it takes one to three, and the largest takes six for a moment
ROOM = 5


def copy_to(folder):
    """Copies all that `rt ci` reads but the edits."""
    shutil.copytree(ROOT / "crates", folder / "crates", ignore=shutil.ignore_patterns("must-fail", "out"))
    for name in ("crates.txt", "HANDLES"):
        shutil.copy(ROOT / name, folder)


def used():
    """The processor seconds of all that was started, and has ended."""
    usage = resource.getrusage(resource.RUSAGE_CHILDREN)
    return usage.ru_utime + usage.ru_stime


def environment():
    """The environment for `rt ci`: as many checks side by side as there are processors, where there is memory for so many. By itself it
    leaves processors idle, since it reckons all the time with what a check takes at most."""
    processors = len(os.sched_getaffinity(0))
    free = re.search(r"MemAvailable: +(\d+) kB", pathlib.Path("/proc/meminfo").read_text())
    has_room = free and int(free[1]) >= processors * ROOM << 20
    return dict(os.environ, RT_JOBS=str(processors)) if has_room else dict(os.environ)


def ci(folder):
    """Runs `rt ci` in a folder. Its status, the lines of edits that show nothing, and how many processor seconds it took."""
    begun, shown_nothing = used(), []
    with subprocess.Popen(["rt", "ci"], cwd=folder, env=environment(), stdout=subprocess.PIPE, stderr=subprocess.STDOUT, text=True,
                          errors="replace") as run:
        for line in run.stdout:
            print(line, end="", flush=True)
            if re.match(r"rt: must-fail \S+: (BAD EDIT|NOT TRIED)", line):
                shown_nothing.append(line.strip())
    return run.returncode, shown_nothing, round(used() - begun)


def keeps_proofs():
    """Whether the kit keeps what was proved from one `rt ci` to the next. One that does can be told not to."""
    told = subprocess.run(["rt", "help"], stdout=subprocess.PIPE, stderr=subprocess.STDOUT, text=True, errors="replace", check=False)
    return "--anew" in told.stdout


def prove():
    """Proves all there is, with no edits. The status, and how many processor seconds it took."""
    with tempfile.TemporaryDirectory(prefix="without-edits-") as folder:
        copy_to(pathlib.Path(folder))
        status, _, seconds = ci(folder)
    return status, seconds


def main():
    took = []
    if keeps_proofs():
        status, seconds = prove()
        if status:
            return status
        took.append(seconds)
    status, shown_nothing, seconds = ci(ROOT)
    took.append(seconds)
    for line in shown_nothing:
        print(f"an edit shows nothing: {line}", file=sys.stderr)
    (ROOT / "bin").mkdir(exist_ok=True)
    (ROOT / "bin" / "ci-seconds").write_text(" ".join(map(str, took)) + "\n", encoding="utf-8")
    return status or (1 if shown_nothing else 0)


if __name__ == "__main__":
    sys.exit(main())
