#!/usr/bin/env python3
"""Refuses each allocation of cases in turn, each case by itself: `tests/refused.py PROGRAM CASES`, the built program `cases` or
`process_cases` and its standard input. A part that is refused memory says so and is called again: it stood as before, so what is printed
but for that is what is printed with ample memory. A node that is refused memory, at a port too, is down from then on: what stands before is
the same. A port in memory that is refused its copy of a datagram has lost it, and counts a fault: all else is the same. Or the program
itself wants memory and ends with 3, and what stands before is the same. Ports and records that fail on purpose are left out: a call that is
refused memory counts there, so that another one fails.

A process closes a client for whose bytes there is no memory: all goes on as if that had broken off then. A node that is refused memory is
down, and its process ends once its clients are told so: each its own answers from before and that, and nothing else. The last line is
'N passed, C closed, D down, M ended, K failed'."""
import collections
import concurrent.futures
import functools
import itertools
import os
import re
import subprocess
import sys
import tempfile
import threading
from pathlib import Path

TESTS = Path(__file__).resolve().parent
# what counts its calls, or looks at what it has by itself
LEFT_OUT = re.compile(rb"^(port [1-9]\d*|letters [1-9]\d*|signed|cluster \d+|record failing|node .* failing) |\Aprocess [^\0]*^tear ", re.M)
# a part that is down once it was refused memory
STAYS_DOWN = re.compile(rb"^(node |port |letters |trace$)", re.M)
AT_PORT = re.compile(rb"^(port|letters) ", re.M)
PROCESS = re.compile(rb"^process ", re.M)
# a call about a client, which is closed where that is refused memory: which client, where it is there already
ABOUT_CLIENT = re.compile(rb"^(?:comes|(?:writes|begins|long|often|sent) (\d+))(?: |$)")
TOLD = re.compile(rb"^to (\d+) (.+)$")
# how many faults of its port a process tells of
FAULTS = re.compile(rb"port-faults (\d+)")
# what a client is told by a node that is down, and what it is told as before, since no node is asked that or is up for it
DOWN = re.compile(rb"(?:refused (?:8|11)|-7)$")
STANDS = re.compile(rb"(?:ok|refused (?:7|15|19)|-8|info .*|rows.*|open.*)$")
# how a view or status is answered, one that is the last word, and how a call of a branch is
VIEW = re.compile(rb"(?:committed|aborted|prepared|working|undecided|unknown)$")
LAST_WORD = re.compile(rb"(?:committed|aborted|refused 17)$")
CALLED = re.compile(rb"(?:-?\d+|none|value .*|xids.*)$")
# the end of a line that says so, of a node's record too; what stands after it at a node, or is a whole trace, isn't the same
REFUSED = re.compile(rb"-> refused 11( \d*)?$")
# lines at the end of what is printed where the program ends, which aren't looked at: they may be cut
LAST = 2
KINDS = ("passed", "closed", "down", "ended", "failed")
# a file with fewer cases shows nothing
LEAST_PARTS, LEAST_PROCESSES = 100, 40
Case = collections.namedtuple("Case", "path text stays_down is_at_port is_process ample")
local = threading.local()


def lines_of(text):
    """The lines of a text, the last with or without its end."""
    lines = text.split(b"\n")
    return lines if lines[-1] else lines[:-1]


def told_cases(path):
    """The cases of a file: what stands between blank lines, without remarks."""
    lines = (line for line in Path(path).read_bytes().split(b"\n") if not line.startswith(b"#"))
    blocks = [[]]
    for line in lines:
        if line.strip():
            blocks[-1].append(line)
        elif blocks[-1]:
            blocks.append([])
    return [b"\n".join(block) + b"\n" for block in blocks if block]


def room():
    """A folder for the runs of this thread, without records."""
    if not hasattr(local, "room"):
        local.room = tempfile.mkdtemp(dir=SCRATCH.name)
    for record in Path(local.room).glob("*.rec"):
        record.unlink()
    return local.room


def run(path, refused):
    """The status, None where it doesn't end, and the lines that are printed where an allocation is refused, none for 0."""
    environment = dict(os.environ, REFUSE=str(refused), LD_PRELOAD=LIBRARY)
    with open(path, "rb") as cases:
        try:
            done = subprocess.run([PROGRAM], cwd=room(), env=environment, stdin=cases, stdout=subprocess.PIPE, stderr=subprocess.DEVNULL,
                                  pass_fds=[9], timeout=60, check=False)
        except subprocess.TimeoutExpired:
            return None, []
    return done.returncode, lines_of(done.stdout)


def with_ample_memory(path):
    """A case and what it prints with ample memory, how many allocations it makes, and whether that is as it should be."""
    with tempfile.TemporaryFile() as marks:
        os.dup2(marks.fileno(), 9)
        status, lines = run(path, 0)
        allocations = marks.seek(0, os.SEEK_END)
    text = path.read_bytes()
    is_right = status == 0 and not any(map(REFUSED.search, lines))
    case = Case(path, text, bool(STAYS_DOWN.search(text)), bool(AT_PORT.search(text)), bool(PROCESS.search(text)), tuple(lines))
    return case, allocations, is_right


def before_refusal(lines, is_at_port):
    """What stands before the first refusal of memory. Of a group in which an input is refused nothing stands at a port; nor elsewhere where
    it would have torn the record, which isn't torn where an input is refused before the append."""
    group, nothing_stands = 0, is_at_port
    for at, line in enumerate(lines):
        nothing_stands = nothing_stands or line.startswith(b"tear ")
        group = at if line.startswith(b"group ") else group
        if REFUSED.search(line):
            return lines[:group if nothing_stands and line.split()[0] == b"came" else at]
    return lines


def looks(lines):
    """What went, by each look at it; how many faults there were, by each; and all other lines."""
    went, faults, others = [], [], []
    for line in lines:
        if line.startswith(b"gone -> "):
            went.append([])
        elif line.startswith(b"gone to ") and went:
            went[-1].append(line)
        elif line.startswith(b"faults -> "):
            faults.append([int(word) for word in line.split()[2:]])
        else:
            others.append(line)
    return went, faults, others


def lacks_one_at_most(part, whole):
    """Whether a list is another, or that without one of it."""
    return part == whole or any(part == whole[:at] + whole[at + 1:] for at in range(len(whole)))


def has_lost_one(told, ample, is_beginning):
    """Whether a port printed what it prints with ample memory, or the beginning of that, but for one datagram that never went, and its
    fault."""
    went, faults, others = looks(told)
    all_went, all_faults, all_others = looks(ample)
    return ((others == all_others or is_beginning and others == all_others[:len(others)]) and all(map(lacks_one_at_most, went, all_went))
            and all(now[0] - before[0] in (0, 1) and now[1:] == before[1:] for now, before in zip(faults, all_faults)))


def judged_part(case, status, lines):
    """What came of a refused allocation in a case of a part."""
    was_refused = any(map(REFUSED.search, lines))
    told = before_refusal(lines, case.is_at_port) if case.stays_down else [line for line in lines if not REFUSED.search(line)]
    ample = list(case.ample)
    if status == 0 and (told == ample or case.stays_down and was_refused and told == ample[:len(told)]):
        return "passed"
    if status == 0 and case.is_at_port and has_lost_one(told, ample, was_refused):
        return "passed"
    known = max(len(told) - LAST, 0)
    return "ended" if status == 3 and told[:known] == ample[:known] else "failed"


def calls_before(case, lines):
    """How many calls of a case are made in these lines."""
    calls, made = lines_of(case.text)[1:], 0
    for line in lines:
        made += made < len(calls) and line.startswith(calls[made] + b" ->")
    return made


@functools.lru_cache(maxsize=None)
def closed_at(case, call):
    """What a process prints with ample memory where a client breaks off in place of a call about it; one that would come doesn't."""
    lines = lines_of(case.text)
    client = ABOUT_CLIENT.match(lines[call + 1])[1]
    lines[call + 1:call + 2] = [b"breaks " + client] if client else []
    # a file of this thread's own: another may be about the same call
    path = Path(room(), "closed")
    path.write_bytes(b"\n".join(lines) + b"\n")
    status, told = run(path, 0)
    return told if status == 0 else []


def is_closed(case, lines, at):
    """Whether a process prints, but for the call in a line that was refused memory, what it prints where its client breaks off there."""
    right = closed_at(case, calls_before(case, lines[:at]))
    is_there = ABOUT_CLIENT.match(lines[at])[1] is not None
    return lines[:at] + lines[at + 1:] == right[:at] + right[at + is_there:]


def is_made_again(case, lines, at):
    """Whether the call in a line that was refused memory is made again behind it, and all else is printed that is with ample memory. A node
    is opened without a call, and a record that can't be looked at isn't another time."""
    call, before, behind = lines[at].rpartition(b"refused 11")[0], lines[:at], lines[at + 1:]
    if call == b"record -> ":
        return before == list(case.ample[:at]) and behind == list(case.ample[at + 1:])
    return (call == b"open -> " or b"".join(behind[:1]).startswith(call)) and before + behind == list(case.ample)


def has_lost_letter(lines, ample):
    """Whether a process prints what it prints with ample memory, but for one letter that never went, a fault of its port from then on."""
    text, right = b"\n".join(lines), b"\n".join(ample)
    more = [int(now) - int(before) for now, before in zip(FAULTS.findall(text), FAULTS.findall(right))]
    return (set(more) <= {0, 1} and more == sorted(more) and right.count(b"\ngone to ") - text.count(b"\ngone to ") <= 1
            and has_lost_one(FAULTS.sub(b"", text).split(b"\n"), FAULTS.sub(b"", right).split(b"\n"), False))


def judged_to_its_end(case, lines):
    """What came of a refused allocation in a process that didn't end."""
    refused = [at for at, line in enumerate(lines) if REFUSED.search(line)]
    if not refused:
        return "passed" if has_lost_letter(lines, list(case.ample)) else "failed"
    [first, *more] = refused
    if more:
        return "failed"
    if ABOUT_CLIENT.match(lines[first]):
        return "closed" if is_closed(case, lines, first) else "failed"
    return "passed" if is_made_again(case, lines, first) else "failed"


def by_client(lines):
    """What each client is told in lines that say so."""
    answers = collections.defaultdict(list)
    for line in lines:
        key, answer = TOLD.match(line).groups()
        answers[key].append(answer)
    return answers


def stands_or_down(answer, right):
    """Whether a line is answered at a node that is down what it is with ample memory, or as such a node answers lines of its kind."""
    if answer == right:
        return bool(STANDS.match(answer))
    if answer.startswith(b"open") and right.startswith(b"open"):
        # what was asked for in that round isn't open where that was refused
        return set(answer.split()) <= set(right.split())
    return answer == b"refused 11" or answer == b"-7" and not VIEW.match(right) or answer == b"refused 8" and not CALLED.match(right)


def is_told_down(told, right, awaits):
    """Whether a client is told what is right up to some line, and from there on that the node is down, where the node is asked. An await
    that would go on may end so besides, and one that would end go on."""
    is_last = awaits and bool(LAST_WORD.match(b"".join(right[-1:])))
    if is_last and len(told) == len(right) - 1:
        return is_told_down(told, right[:-1], False)
    if awaits and not is_last and len(told) == len(right) + 1:
        return told[-1] in (b"refused 8", b"refused 11", b"-7") and is_told_down(told[:-1], right, False)
    first = next((at for at, answer in enumerate(told) if DOWN.match(answer)), len(told))
    return len(told) == len(right) and told[:first] == right[:first] and all(map(stands_or_down, told[first:], right[first:]))


def goes_down_once(answers):
    """Whether a node that is asked one thing after another is up first, then maybe wants memory once, and then is down."""
    kinds = [DOWN.match(answer) and answer for answer in answers if not STANDS.match(answer)]
    down = list(itertools.dropwhile(lambda kind: kind is None, kinds))
    return None not in down and b"refused 11" not in down[1:]


def are_told_down(told, right, awaits):
    """Whether clients are told in a round in which the node was refused memory what docs/PROCESSES.md says, each of its own lines: these
    are taken client by client, from one of them on. What is awaited is asked behind all of them."""
    each, right_each = by_client(told), by_client(right)
    keys = sorted(each.keys() | right_each.keys(), key=int)
    asked = [each[key][:len(each[key]) - awaits(key)] for key in keys]
    return (all(is_told_down(each[key], right_each[key], awaits(key)) for key in keys)
            and sum(line.endswith(b" refused 11") for line in told) <= 1
            and any(goes_down_once(sum(asked[at:] + asked[:at], [])) for at in range(len(keys))))


def who_awaits(case):
    """Whether a client writes an await in a case, by its key."""
    node = re.escape(case.text.split()[1])
    keys = re.findall(rb"^(?:writes|begins|often|slowly) (\d+) .*\bawait " + node + rb" \S+/", case.text, re.M)
    return lambda key: key in keys or bool(re.search(rb"^together \d+ await ", case.text, re.M))


def told_in(lines):
    """What is told in front of lines."""
    return list(itertools.takewhile(TOLD.match, lines))


def judged_ended(case, lines):
    """What came of a refused allocation in a process that ended: its last line may be cut."""
    *whole, last = lines or [b""]
    ample = list(case.ample)
    down = next((at for at, line in enumerate(lines) if (said := TOLD.match(line)) and DOWN.match(said[2])), None)
    if down is None:
        is_so = whole == ample[:len(whole)] and b"".join(ample[len(whole):len(whole) + 1]).startswith(last)
        return "ended" if is_so else "failed"
    begun = max(at for at, line in enumerate(lines[:down]) if not TOLD.match(line)) + 1
    told = told_in(lines[begun:])
    is_so = (lines[:begun] == ample[:begun] and lines[begun + len(told):] in ([], [b""])
             and are_told_down(told, told_in(ample[begun:]), who_awaits(case)))
    return "down" if is_so else "failed"


def judged_process(case, status, lines):
    """What came of a refused allocation in a case of a process."""
    if status == 0:
        return judged_to_its_end(case, lines)
    return judged_ended(case, lines) if status == 3 else "failed"


def judged(case, number):
    """What came of a refused allocation, and of which."""
    status, lines = run(case.path, number)
    kind = judged_process(case, status, lines) if case.is_process else judged_part(case, status, lines)
    return kind, f"FAILED: {lines_of(case.text)[0].decode()[:100]}, {case.path.name}, at allocation {number}: status {status}"


def main():
    paths = []
    for number, text in enumerate(told_cases(sys.argv[2])):
        if not LEFT_OUT.search(text):
            paths.append(Path(SCRATCH.name, f"{number:03}"))
            paths[-1].write_bytes(text)
    counts = collections.Counter()
    each = [with_ample_memory(path) for path in paths]
    # where the program puts its marks from now on
    os.dup2(os.open(os.devnull, os.O_WRONLY), 9)
    tasks = [(case, number) for case, allocations, _ in each for number in range(1, allocations + 1)]
    with concurrent.futures.ThreadPoolExecutor(len(os.sched_getaffinity(0))) as pool:
        for kind, which in pool.map(lambda task: judged(*task), tasks):
            counts[kind] += 1
            if kind == "failed":
                print(which)
    # a case that asks for next to nothing shows nothing
    counts["failed"] += sum(not is_right or allocations < 3 for _, allocations, is_right in each)
    print(", ".join(f"{counts[kind]} {kind}" for kind in KINDS))
    processes = sum(case.is_process for case, _, _ in each)
    is_enough = len(each) >= LEAST_PARTS or processes >= LEAST_PROCESSES and counts["closed"] and counts["down"]
    sys.exit(0 if is_enough and not counts["failed"] else 1)


PROGRAM = os.path.realpath(sys.argv[1])
SCRATCH = tempfile.TemporaryDirectory()
LIBRARY = os.path.join(SCRATCH.name, "refuse.so")
subprocess.run(["cc", "-shared", "-fPIC", "-o", LIBRARY, TESTS / "refuse_memory.c", "-ldl"], check=True)
main()
