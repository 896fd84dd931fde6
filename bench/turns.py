#!/usr/bin/env python3
"""Measures a program beside another that does the same, turn and turn about: `turns.py PROGRAM OTHER EVENTS WORD.. REPETITIONS`.

A turn is a run of each with REPETITIONS as its last word, and one with 0, whose processor time is taken off. Prints how many events the
program does in a second, how many nanoseconds each takes, and the median, over 21 turns, of how many times as long the other takes. EVENTS
is how many there are in a repetition. Where OTHER isn't there, the program is measured alone."""
import os
import statistics
import subprocess
import sys

TURNS = 21


def seconds(program, words):
    """The processor time of a run."""
    process = subprocess.Popen([program, *words], stdout=subprocess.DEVNULL)
    _, status, usage = os.wait4(process.pid, 0)
    if status != 0:
        sys.exit(1)
    return usage.ru_utime + usage.ru_stime


def taken(program, words, repetitions):
    """The processor time of the repetitions."""
    return seconds(program, [*words, repetitions]) - seconds(program, [*words, "0"])


def main():
    program, other, events, *words, repetitions = sys.argv[1:]
    programs = [program, other] if os.access(other, os.X_OK) else [program]
    turns = [[taken(one, words, repetitions) for one in programs] for _ in range(TURNS)]
    each = statistics.median(turn[0] for turn in turns) / (int(events) * int(repetitions))
    line = f"{1 / each:.0f} events per second, {1e9 * each:.0f} nanoseconds each"
    if len(programs) > 1:
        ratios = [turn[1] / turn[0] for turn in turns]
        line += f"; plain Rust takes {statistics.median(ratios):.2f} times as long ({min(ratios):.2f} to {max(ratios):.2f})"
    print(line)


main()
