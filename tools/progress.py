#!/usr/bin/env python3
"""Proves a crate and all that it stands on, side by side, prints a line for each crate as it ends, and then builds its program.

tools/progress.py CRATE LOG WORDS.. builds the program of that crate and runs it once with these words, in the crate's folder, whatever it
says to them. All that `rt` prints goes to the file LOG; where a step fails, its errors and the place of the log are printed, and the status
is 1.
"""
import os
import re
import subprocess
import sys
import time
from concurrent.futures import FIRST_COMPLETED, ThreadPoolExecutor, wait
from pathlib import Path

ROOT = Path(__file__).resolve().parent.parent
# what a check takes at the most, in bytes
MEMORY_OF_A_CHECK = 4_000_000_000


def below(crate):
    """A crate and those of this repository that it stands on: each with the ones that it names, in the order of crates.txt."""
    lines = (ROOT / "crates.txt").read_text(encoding="utf-8").splitlines()
    named = {line.split(":")[0].strip(): line.partition(":")[2].split() for line in lines if line.strip() and line[0] != "#"}
    wanted = {crate}
    for name in reversed(named):
        wanted |= set(named[name]) if name in wanted else set()
    return {name: [other for other in named[name] if other in named] for name in named if name in wanted}


def jobs():
    """How many crates are proved at a time: one a processor, as far as memory goes."""
    free = re.search(r"MemAvailable:\s+(\d+) kB", Path("/proc/meminfo").read_text(encoding="utf-8"))
    return max(1, min(len(os.sched_getaffinity(0)), 1024 * int(free.group(1)) // MEMORY_OF_A_CHECK))


def say(text):
    print(text, flush=True)


def run(command, folder, log):
    """Runs a command, and copies what it prints to the log. Its status."""
    told = subprocess.run(command, cwd=folder, stdout=subprocess.PIPE, stderr=subprocess.STDOUT, text=True, encoding="utf-8", errors="replace")
    log.write(told.stdout)
    log.flush()
    return told.returncode


def prove(crates, lanes, log, begun):
    """Checks crates, each once those that it stands on are proved, and says so of each. Whether all were; at the first that isn't, no more
    begin."""
    left, proved, running = dict(crates), set(), {}
    with ThreadPoolExecutor(lanes) as pool:
        while left or running:
            for crate in [name for name in left if proved.issuperset(left[name])]:
                del left[crate]
                running[pool.submit(run, ["rt", "check"], ROOT / "crates" / crate, log)] = crate
            for ended in wait(running, return_when=FIRST_COMPLETED).done:
                crate = running.pop(ended)
                if ended.result():
                    pool.shutdown(cancel_futures=True)
                    return False
                proved.add(crate)
                say(f"{len(proved):3} of {len(crates)}  {crate}, after {time.monotonic() - begun:.0f} s")
    return True


def faults(lines):
    """The lines of a log that say why its command failed: errors, and what isn't proved; or else the last ones."""
    found = [line for line in lines if re.search(r"\berror(\[|: )|it is not proved|: no proof:|NOT PROVED|: FAILED", line)]
    return list(dict.fromkeys(found)) or lines[-10:]


def main():
    crate, log_path, words = sys.argv[1], Path(sys.argv[2]), sys.argv[3:]
    crates, lanes = below(crate), jobs()
    log_path.parent.mkdir(parents=True, exist_ok=True)
    say(f"Proving {len(crates)} crates, {lanes} at a time, low ones first; what is proved is kept. README.md says how long it takes the first time.")
    say(f"The whole log goes to {log_path}.")
    begun = time.monotonic()
    with open(log_path, "w", encoding="utf-8") as log:
        done = prove(crates, lanes, log, begun)
        if done:
            say(f"Building {crate}.")
            run(["rt", "run", "--", *words], ROOT / "crates" / crate, log)
            # rt says so once the program is built, before it starts it
            done = "\nrt: running out/" in log_path.read_text(encoding="utf-8")
    seconds = time.monotonic() - begun
    if not done:
        for line in faults(log_path.read_text(encoding="utf-8").splitlines())[:20]:
            say(line)
        say(f"Failed after {seconds:.0f} s; see {log_path}.")
        return 1
    say(f"Proved and built in {seconds:.0f} s.")
    return 0


if __name__ == "__main__":
    try:
        sys.exit(main())
    except KeyboardInterrupt:
        sys.exit(130)
