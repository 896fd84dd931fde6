#!/usr/bin/env python3
"""Runs the built programs over many of what a case has few of: `tests/many.py PCOMMIT CASES`. Thousands of transactions in one cluster, of
which each report to the leader comes twice, and each is committed, or taken over and aborted, or the first half of which is forgotten once
all are committed; and 300 branches that hold 64 keys each, shared with those next to them: an end looks at no more than twice its keys and
four, and a key is free once its last holder has ended.
The last line is 'N passed, M failed'."""
import os
import subprocess
import sys
import tempfile

PCOMMIT, CASES = (os.path.realpath(path) for path in sys.argv[1:3])
TRANSACTIONS = 3000
READERS = 300
KEYS = 64
passed = failed = 0


def check(name, is_right):
    global passed, failed
    if is_right:
        passed += 1
    else:
        failed += 1
        print(f"FAILED {name}")


def run(lines):
    """The lines that the program prints of a script."""
    with tempfile.NamedTemporaryFile("w", suffix=".script") as file:
        file.write("\n".join(lines) + "\n")
        file.flush()
        done = subprocess.run([PCOMMIT, "run", file.name], capture_output=True, text=True)
    return done.stdout.splitlines() if done.returncode == 0 else []


def transaction(number):
    return f"{number}:74/0=61,1=62"


def numbers_sent(trace, kind):
    """The numbers of the datagrams of a kind, in order."""
    sent = (line.split() for line in trace if line.startswith("sent "))
    return [words[1] for words in sent if words[4] == kind]


def outcomes(trace, view):
    """How many transactions came to a view at a resource manager."""
    return sum(line.startswith("now ") and line.endswith(f" {view}") for line in trace)


def are_told_twice(name, head, kind):
    """What a leader was told once more leads to nothing."""
    trace = run(head)
    again = [f"deliver {number}" for number in numbers_sent(trace, kind)]
    twice = run(head + again)
    events = [line for line in twice if " -> " in line]
    check(f"{name}, told twice", again and events[-len(again):] == [f"{line} -> ok" for line in again])
    check(f"{name}, and no more", len(twice) == len(trace) + len(again))
    return trace


def many_commits(form):
    head = [f"cluster acceptors 3 leaders 1 rms 2{form}"]
    for number in range(TRANSACTIONS):
        for manager, name in ((0, "61"), (1, "62")):
            head += [f"start r{manager} {number}:74:{name}", f"end r{manager} {number}:74:{name}"]
        head.append(f"commit l0 {transaction(number)}")
    trace = are_told_twice(f"commits{form}", head + ["flow 4294967295"], "b2b" if form else "p2b")
    check(f"all commit{form}", outcomes(trace, "committed") == 2 * TRANSACTIONS)


def many_take_overs(form):
    head = [f"cluster acceptors 3 leaders 1 rms 2{form}"]
    head += [f"timeout l0 {transaction(number)}" for number in range(TRANSACTIONS)]
    trace = are_told_twice(f"take-overs{form}", head + ["flow 4294967295"], "b1b" if form else "p1b")
    check(f"all abort{form}", outcomes(trace, "aborted") == 2 * TRANSACTIONS)


def many_forgotten():
    half = TRANSACTIONS // 2
    names = [f"1:{number:08x}" for number in range(TRANSACTIONS)]
    lines = ["cluster acceptors 1 leaders 1 rms 1"]
    for name in names:
        lines += [f"start r0 {name}:61", f"end r0 {name}:61", f"commit l0 {name}/0=61", "flow 4"]
    lines += [f"floor r0 {names[half]}", "hear 1", "hear 2"]
    asked = [f"status l0 {name}/0=61" for name in names]
    viewed = [f"view r0 {name}/0=61" for name in names] + [f"start r0 {name}:61" for name in names]
    answers = ["refused 17"] * half + ["committed"] * half
    wanted = zip(asked + ["restart r0"] + viewed, answers + ["ok"] + answers + ["-8"] * TRANSACTIONS)
    wanted = [f"{line} -> {answer}" for line, answer in wanted]
    trace = run(lines + asked + ["restart r0"] + viewed)
    check("the first half is forgotten", [line for line in trace if " -> " in line][-len(wanted):] == wanted)


def reader(number):
    return f"1:{number:04x}:61"


def is_free(key):
    """Calls by which a new branch puts a key; the second of them is answered 0 where it may."""
    return [f"start 9:70:61", f"put 9:70:61 {key:04x} -", "end 9:70:61", "rollback 9:70:61"]


def many_readers():
    calls = []
    for number in range(READERS):
        calls.append(f"start {reader(number)}")
        calls += [f"get {reader(number)} {key:04x}" for key in range(number, number + KEYS)]
        calls.append(f"end {reader(number)}")
    begun = len(calls)
    for number in range(READERS):
        calls += is_free(number) + ["looks", f"rollback {reader(number)}", "looks"] + is_free(number) + is_free(number + 1)
    calls += [call for key in range(READERS, READERS + KEYS) for call in is_free(key)]
    done = subprocess.run([CASES], input="\n".join(["branches"] + calls), capture_output=True, text=True)
    answers = [line.rsplit(" -> ", 1)[1] for line in done.stdout.splitlines() if " -> " in line]
    check("each call is answered", len(answers) == len(calls))
    answers = answers[begun:]
    for number in range(READERS):
        held, before, ended, after, freed, following = (answers[15 * number + place] for place in (1, 4, 5, 6, 8, 12))
        check(f"reader {number} holds its first key", held == "refused 9")
        check(f"reader {number} ends", ended == "0" and KEYS <= int(after) - int(before) <= 2 * KEYS + 4)
        check(f"reader {number} lets it go", freed == "0")
        check(f"reader {number} leaves the next", following == ("0" if number == READERS - 1 else "refused 9"))
    check("all keys are free", all(answer == "0" for answer in answers[15 * READERS + 1::4]))


for form in ("", " bundled"):
    many_commits(form)
    many_take_overs(form)
many_forgotten()
many_readers()
print(f"{passed} passed, {failed} failed")
sys.exit(1 if failed else 0)
