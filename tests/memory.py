#!/usr/bin/env python3
"""Refuses each block of memory that runs and an audit ask for, one after the other: `tests/memory.py [PROGRAM]`. The program answers 11 as
a whole and prints nothing else (or a beginning of the text, where its first piece was printed by then), or prints a trace in which one
event is answered 11. All other lines are then those of a run with ample memory without that event, or with its node taken down before it
(by a torn append of another transaction, which stores nothing). Such a trace is consistent; and once all nodes are restarted, they serve
calls, and each transaction is ended. Or, where a map asked again for less room, the trace is that of the run with ample memory. The last
line is 'N passed, M failed'."""
import concurrent.futures
import os
import re
import subprocess
import sys
import tempfile

from checks import check, end

TESTS = os.path.dirname(os.path.realpath(__file__))
program = os.path.realpath(sys.argv[1] if len(sys.argv) > 1 else "bin/pcommit")
scratch = tempfile.TemporaryDirectory()
library = os.path.join(scratch.name, "refuse.so")
ROWS = ["first_branch", "plain_commit", "takeover_before_vote_late", "takeover_before_vote_early", "bundled_commit", "bundled_takeover",
        "ballots_after_restart", "limits", "compacted", "floors_cross", "floors_told", "bundled_floors", "replaced_acceptor"]
# a transaction that is in no row, and a branch
OTHER, STRANGER = "9:77/{}=77", "9:78:78"
# what may come of a refusal: 11 as a whole, or an answer 11 by a node that goes on or is down, or in what follows the row; or nothing
KINDS = ["whole", "nothing", "down", "late", "again"]


def golden(name):
    with open(os.path.join(TESTS, "golden", name)) as file:
        return file.read()


def call(word, path, refused=0):
    """The status, and what the program prints, where a block of this number is refused, none for 0."""
    environment = dict(os.environ, REFUSE=str(refused), LD_PRELOAD=library)
    done = subprocess.run([program, word, path], env=environment, capture_output=True, text=True, pass_fds=[9])
    return done.returncode, done.stdout, done.stderr


def written(name, text):
    path = os.path.join(scratch.name, name)
    with open(path, "w") as file:
        file.write(text)
    return path


def blocks(word, path):
    """How many blocks the program asks for: each puts a byte on descriptor 9."""
    with tempfile.TemporaryFile() as marks:
        os.dup2(marks.fileno(), 9)
        call(word, path)
        count = marks.seek(0, os.SEEK_END)
    os.dup2(os.open(os.devnull, os.O_WRONLY), 9)
    return count


def each_refused(word, path):
    """What comes of each refusal, with its number."""
    numbers = range(1, blocks(word, path) + 1)
    with concurrent.futures.ThreadPoolExecutor(os.cpu_count()) as pool:
        return list(zip(numbers, pool.map(lambda number: call(word, path, number), numbers)))


# ---- what a trace says of its nodes

class Row:
    """A golden run, event by event, and what follows it here: all nodes are restarted, once more where a tear may be left over, what was
    told of floors is heard again, and each transaction is ended."""

    def __init__(self, trace):
        lines = trace.splitlines()
        begun = next(at for at, line in enumerate(lines) if " -> " in line)
        self.head = lines[:begun]
        self.lines = [line for line in lines[begun:] if not line.startswith("final ")]
        self.events = [line.split(" -> ")[0] for line in self.lines if " -> " in line]
        counts = map(int, re.match(r"cluster acceptors (\d+) leaders (\d+) rms (\d+)", lines[0]).groups())
        self.nodes = [f"{kind}{number}" for kind, count in zip("alr", counts) for number in range(count)]
        self.replaced = {line.split()[1] for line in self.events if line.startswith("replace ")}
        self.transactions = sorted({line.split()[2] for line in self.events if line.split()[0] in ("commit", "timeout")})
        again = [f"restart {node}" for node in self.nodes]
        again += [f"hear {line.split()[1]}" for line in self.lines if line.startswith("told ")]
        again += [line for tx in self.transactions for line in (f"timeout l0 {tx}", "flow 1000")]
        self.serves = [f"start {node} {STRANGER}" for node in self.nodes if node[0] == "r"]
        self.ends = [f"status l0 {tx}" for tx in self.transactions]
        # what a leader answers of a transaction: its outcome, or that it is over where the row has floors
        self.outcomes = {"committed", "aborted"} | ({"refused 17"} if any(line.startswith("floor ") for line in self.events) else set())
        is_torn = any(line.startswith("tear ") for line in self.events)
        self.epilogue = again + (again if is_torn else []) + self.serves + self.ends

    def script(self, events):
        return "\n".join(self.head + events + self.epilogue) + "\n"

    def serves_again(self, trace):
        """Whether the last restarts were answered ok, the calls after them 0, and each transaction has ended."""
        lines = [line.split(" -> ") for line in trace.splitlines() if " -> " in line]
        restarts = [answer for event, answer in lines if event.startswith("restart ")][-len(self.nodes):]
        calls = [answer for _, answer in lines[-len(self.serves + self.ends):]]
        return (set(restarts) == {"ok"} and calls[:len(self.serves)] == ["0"] * len(self.serves)
                and set(calls[len(self.serves):]) <= self.outcomes)

    def before(self, at):
        """The node that an event reaches; and at that point which nodes are down, the tears that are armed, and how many datagrams
        there are."""
        receivers, hearers, down, tears, place = {}, {}, set(), {}, -1
        for line in self.lines:
            words = line.split()
            if words[0] == "sent":
                receivers[words[1]] = words[3]
            if words[0] == "told":
                hearers[words[1]] = words[3]
            if " -> " not in line:
                continue
            by_number = {"deliver": receivers, "cut": receivers, "lose": receivers, "hear": hearers}
            node = by_number[words[0]].get(words[1]) if words[0] in by_number else words[1]
            place += 1
            if place == at:
                return node, down, tears, len(receivers)
            if words[0] == "tear":
                tears[node] = words[2]
            if line.endswith(" -> refused 5"):
                down.add(node)
                tears.pop(node, None)
            if words[0] in ("restart", "replace") and line.endswith(" -> ok"):
                down.discard(node)
        return None, down, tears, len(receivers)


# ---- what may stand after an event that is answered 11

def shifted(line, above, by):
    """A line with the numbers of all datagrams above one raised."""
    words = line.split(" ")
    if words[0] in ("deliver", "lose", "cut", "sent") and int(words[1]) > above:
        words[1] = str(int(words[1]) + by)
    return " ".join(words)


def taken_down(row, at):
    """Events that take the node of an event down, if it is up, and store and send nothing of the row's, and how many datagrams they send;
    None where it reaches no node, or no leader is up to begin them: one that is replaced may have stored nothing."""
    node, down, tears, count = row.before(at)
    leader = next((other for other in row.nodes if other[0] == "l" and other not in down | row.replaced), None)
    if node in down:
        return [], 0
    if node is None or leader is None:
        return None
    armed, again = [f"tear {node} 0"], [f"tear {node} {tears[node]}"] if node in tears else []
    if node[0] == "l":
        return armed + [f"timeout {node} {OTHER.format(0)}"] + again, 0
    if node[0] == "r":
        return [f"commit {leader} {OTHER.format(node[1:])}"] + armed + [f"deliver {count + 1}"] + again, 1
    acceptors = [other for other in row.nodes if other[0] == "a"]
    lost = [f"lose {count + 1 + number}" for number, other in enumerate(acceptors) if other != node]
    mine = f"deliver {count + 1 + acceptors.index(node)}"
    return [f"timeout {leader} {OTHER.format(0)}"] + armed + [mine] + again + lost, len(acceptors)


def after(text, events):
    """The lines of the run of a script after so many events."""
    lines = call("run", written("reference", text))[1].splitlines()
    return lines[[place for place, line in enumerate(lines) if " -> " in line][events]:]


def without(row, at):
    """The lines after an event, where it doesn't happen."""
    return after(row.script(row.events[:at] + row.events[at + 1:]), at)


def with_node_down(row, at):
    """The lines after an event, where its node was taken down before it; that it is restarted or replaced in vain leaves it down."""
    taken = taken_down(row, at)
    if taken is None:
        return None
    lines, sent = taken
    count = row.before(at)[3]
    # at a node that is down the event itself is answered so, and does nothing
    ours = [] if row.events[at].startswith(("restart ", "replace ")) else [row.events[at]]
    rest = [shifted(line, count, sent) for line in ours + row.events[at + 1:]]
    then = after(row.script(row.events[:at] + lines + rest), at + len(lines) + len(ours))
    return [shifted(line, count + sent, -sent) for line in then]


# ---- the rows

def judged(row, ample, out, references):
    """What a run with one refusal is like: it has an event answered 11, and is right in all lines; or why it isn't."""
    lines, wanted = out.splitlines(), ample.splitlines()
    places = [place for place, line in enumerate(lines) if line.endswith(" -> refused 11")]
    if len(places) != 1 or lines[:places[0]] != wanted[:places[0]]:
        return "not one event is answered 11 after lines with ample memory"
    if call("audit", written("trace", out))[1] != "consistent\n":
        return "it isn't consistent"
    at = sum(" -> " in line for line in lines[:places[0]])
    if at >= len(row.events):
        return "late"
    if not row.serves_again(out):
        return "a node doesn't serve again"
    if at not in references:
        references[at] = without(row, at), with_node_down(row, at)
    then = lines[places[0] + 1:]
    return "nothing" if then == references[at][0] else "down" if then == references[at][1] else "other lines after it"


def refuses(name, trace):
    """Refuses each block of a row in turn, and counts what came of it."""
    row, references, verdicts = Row(trace), {}, {}
    path = written("script", row.script(row.events))
    status, ample, said = call("run", path)
    begins = trace[:trace.index("\nfinal ") + 1]
    check(f"{name} with ample memory", status == 0 and not said and ample.startswith(begins) and row.serves_again(ample), ample)
    counts = dict.fromkeys(KINDS, 0)
    for number, (status, out, said) in each_refused("run", path):
        if (status, out, said) == (3, "", "pcommit: refused 11\n"):
            verdict = "whole"
        elif (status, out, said) == (0, ample, ""):
            verdict = "again"
        elif (status, said) == (0, ""):
            if out not in verdicts:
                verdicts[out] = judged(row, ample, out, references)
            verdict = verdicts[out]
        else:
            verdict = f"status {status}, {said}"
        check(f"{name} at block {number}", verdict in KINDS, verdict)
        counts[verdict] = counts.get(verdict, 0) + 1
    check(f"maps that ask again in {name}", counts["again"] < sum(counts.values()) / 10, counts)
    return counts


def torn_votes():
    """The traces of a vote that is torn after each number of its bytes."""
    short, whole = golden("torn_vote_one_short.out"), golden("torn_vote_whole.out")
    for kept in range(25):
        yield f"a vote torn at {kept}", re.sub(r"^tear r0 \d+ ", f"tear r0 {kept} ", whole if kept == 24 else short, flags=re.M)


def audits(name):
    """Refuses each block of an audit in turn."""
    path = written("audited", golden(name + ".out"))
    check(f"audit of {name}", call("audit", path) == (0, "consistent\n", ""))
    whole = 0
    for number, done in each_refused("audit", path):
        whole += done == (3, "", "pcommit: refused 11\n")
        check(f"audit of {name} at block {number}", done in ((3, "", "pcommit: refused 11\n"), (0, "consistent\n", "")), done)
    check(f"audit of {name} is refused", whole > 20, whole)


def later_pieces():
    """Refuses the last blocks of a run whose text has more than one piece: once the first is printed, a run that is out of memory as a
    whole has printed a beginning of its text."""
    starts = "".join(f"start r0 1:{number:04x}:00\n" for number in range(4000))
    path = written("pieces", f"cluster acceptors 1 leaders 1 rms 1\ntable r0 6b=76 6c=77\n{starts}")
    status, ample, said = call("run", path)
    check("a run in pieces", status == 0 and not said and len(ample) > 65536)
    begun = 0
    last = blocks("run", path)
    for number in range(last - 30, last + 1):
        status, out, said = call("run", path, number)
        is_begun = (status, said) == (3, "pcommit: refused 11\n") and len(out) > 65536 and out != ample and ample.startswith(out)
        begun += is_begun
        # a block that was asked for before the first piece: nothing is printed
        is_whole = (status, out, said) == (3, "", "pcommit: refused 11\n")
        is_right = is_begun or is_whole or (status, said) == (0, "")
        check(f"a run in pieces at block {number}", is_right, f"status {status}, {said}, {len(out)} bytes")
    check("a run in pieces is refused", begun > 0)


subprocess.run(["cc", "-shared", "-fPIC", "-o", library, os.path.join(TESTS, "refuse_memory.c"), "-ldl"], check=True)
os.dup2(os.open(os.devnull, os.O_WRONLY), 9)
totals = dict.fromkeys(KINDS, 0)
for name, trace in [(name, golden(name + ".out")) for name in ROWS] + list(torn_votes()):
    for verdict, count in refuses(name, trace).items():
        totals[verdict] = totals.get(verdict, 0) + count
print(f"refused as a whole {totals['whole']}, an event that then didn't happen {totals['nothing']}, or took its node down "
      f"{totals['down']}, an event after the row {totals['late']}, asked again {totals['again']}")
check("each kind is seen", min(totals[verdict] for verdict in ("whole", "nothing", "down")) > 0)
audits("takeover_finds_prepared")
later_pieces()
end()
