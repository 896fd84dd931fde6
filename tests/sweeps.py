#!/usr/bin/env python3
"""Runs the built program on scripts made of those in tests/golden: a vote torn after each number of bytes; each append of whole runs torn
after each number of bytes; records made shorter after each event; and, before and after each event, lines that are refused: its call with
wrong lengths, of a branch that isn't there or once more, and every event at a node that isn't there. Then over record files: frames of both
versions in every mixture, with a floor in front and without, with a tail, cut at each byte, and what is no record; and a trace that is cut
at each byte.
`tests/sweeps.py [PROGRAM]`. The last line is 'N passed, M failed'."""
import itertools
import os
import re
import subprocess
import sys
import tempfile

from checks import check, end

GOLDEN = os.path.join(os.path.dirname(os.path.realpath(__file__)), "golden")
program = os.path.realpath(sys.argv[1] if len(sys.argv) > 1 else "bin/pcommit")
scratch = tempfile.TemporaryDirectory()

# a frame's length, version and kind
HEAD = 6
# what follows the transaction in the fact that a message or a timeout makes a node store
BEHIND = {"p1a": 6, "p2a": 7, "b1a": 4, "timeout": 4}
# how many tears there are, by hand from the facts that are stored and the sizes in docs/FORMATS.md
TORN_ROWS = {
    "plain_commit": 276,
    "takeover_finds_prepared": 530,
    "takeover_before_vote_late": 329,
    "takeover_before_vote_early": 249,
    "two_lists_one_gtrid": 106,
    "bundled_commit": 276,
    "bundled_takeover": 281,
}
SHORTER_ROWS = ["plain_commit", "takeover_finds_prepared", "takeover_before_vote_late", "takeover_before_vote_early", "bundled_takeover",
                "torn_vote_before_first_byte", "torn_vote_in_length", "torn_vote_after_length", "torn_vote_in_body",
                "torn_vote_one_short", "torn_vote_whole", "torn_vote_far", "floor_forgets", "floor_waits", "floors_cross", "replace_lost"]


def golden(name):
    with open(os.path.join(GOLDEN, name)) as file:
        return file.read()


def call(word, text):
    """What the program prints of a text, or None where its status isn't 0 or it says something on standard error."""
    path = os.path.join(scratch.name, "text")
    with open(path, "w") as file:
        file.write(text)
    done = subprocess.run([program, word, path], capture_output=True, text=True)
    return done.stdout if done.returncode == 0 and not done.stderr else None


class Event:
    """An event of a trace: its line, its answer, and the lines of what it changed and sent."""

    def __init__(self, line):
        self.text, self.answer = line.split(" -> ")
        self.then = []

    def lines(self):
        return [f"{self.text} -> {self.answer}"] + self.then


def read_trace(trace):
    """The lines before the first event, the events, and the lines of the last tables."""
    head, events, finals = [], [], []
    for line in trace.splitlines():
        if line.startswith("final "):
            finals.append(line)
        elif " -> " in line:
            events.append(Event(line))
        elif events:
            events[-1].then.append(line)
        else:
            head.append(line)
    return head, events, finals


def script_of(head, lines):
    return "\n".join(head + lines) + "\n"


# ---- a vote torn after each number of bytes

def torn_votes():
    script, short, whole = golden("torn_vote_whole.script"), golden("torn_vote_one_short.out"), golden("torn_vote_whole.out")
    frame = int(re.search(r"^tear r0 (\d+)$", script, re.M)[1])
    for kept in range(frame + 2):
        form = short if kept < frame else whole
        wanted = re.sub(r"^tear r0 \d+ ", f"tear r0 {kept} ", form, flags=re.M)
        got = call("run", re.sub(r"^tear r0 \d+$", f"tear r0 {kept}", script, flags=re.M))
        check(f"a vote torn at {kept}", got == wanted, got)
    check("torn votes", frame == 24, f"the frame has {frame} bytes")


# ---- each append of a run torn after each number of bytes

def spelled(tx):
    """How many bytes a transaction has in a frame."""
    gtrid, branches = re.fullmatch(r"\d+:([0-9a-f]+)/(.*)", tx).groups()
    return 6 + len(gtrid) // 2 + sum(3 + len(bqual) // 2 for bqual in re.findall(r"=([0-9a-f]+)", branches))


def touched(events, rm, tx):
    """How many bytes the keys have that a resource manager's branch of a transaction has touched since its start."""
    number = rm[1:]
    xid = tx.split("/")[0] + ":" + re.search(rf"[/,]{number}=([0-9a-f]+)", tx)[1]
    keys = {}
    for event in events:
        words = event.text.split()
        if words[1:3] != [rm, xid] or event.answer.startswith("refused"):
            continue
        if words[0] == "start":
            keys = {}
        elif words[0] == "put":
            keys[words[3]] = 4 + len(words[3]) // 2 + len(words[4]) // 2
        elif words[0] == "del" or words[0] == "get" and words[3] not in keys:
            keys[words[3]] = 2 + len(words[3]) // 2
    return sum(keys.values())


def reached(events, event):
    """The node that an event hands something to which it may store, and the word of that; or none."""
    words = event.text.split()
    if words[0] in ("timeout", "commit"):
        return words[1], words[0], words[2]
    if words[0] != "deliver":
        return None
    for other in events:
        for line in other.then:
            sent = line.split()
            if sent[:2] == ["sent", words[1]]:
                return sent[3], sent[4], sent[5]
    return None


def frame_of(events, at, rm_or_node, word, tx):
    """How many bytes the frame has that an event adds, if it adds one."""
    for line in events[at].then:
        if line.startswith("now "):
            votes = line.endswith(" prepared")
            return HEAD + spelled(tx) + (1 + touched(events[:at], rm_or_node, tx) if votes else 0)
    return HEAD + spelled(tx) + BEHIND.get(word, 0)


def tear(head, events, at, node, kept):
    """The trace where an event's append is torn and its node is restarted then."""
    lines = [event.text for event in events]
    return call("run", script_of(head, lines[:at] + [f"tear {node} {kept}", lines[at], f"restart {node}"] + lines[at + 1:]))


def is_torn_so(trace, head, events, at, node, moves):
    """Whether a trace is the run's up to the tear, then refuses the event, shows the view that it moved, if any, and restarts."""
    before = head + [line for event in events[:at] for line in event.lines()]
    lines = trace.splitlines()
    then = lines[len(before) + 1:]
    wanted = [f"{events[at].text} -> refused 5"] + moves + [f"restart {node} -> ok"]
    return lines[:len(before)] == before and then[:len(wanted)] == wanted


def torn_appends(name, tears):
    head, events, _ = read_trace(golden(name + ".out"))
    runs = appends = 0
    for at, event in enumerate(events):
        target = reached(events[:at], event)
        if target is None:
            continue
        node, word, tx = target
        first = tear(head, events, at, node, 0)
        if first is None or f"{event.text} -> refused 5" not in first.splitlines():
            continue
        appends += 1
        frame = frame_of(events, at, node, word, tx)
        for kept in range(frame + 1):
            trace = tear(head, events, at, node, kept)
            moved = [line for line in event.then if line.startswith("now ")] if kept == frame else []
            is_right = trace is not None and is_torn_so(trace, head, events, at, node, moved)
            check(f"{name}: {event.text} torn at {kept} of {frame}", is_right and call("audit", trace) == "consistent\n", trace)
            runs += 1
    print(f"{name}: {appends} appends, {runs} tears")
    check(f"tears of {name}", runs == tears, f"{runs} were run of {tears}")


# ---- records made shorter after each event

def nodes_of(head):
    sizes = re.match(r"cluster acceptors (\d+) leaders (\d+) rms (\d+)", head[0])
    return [f"{kind}{number}" for kind, count in zip("alr", sizes.groups()) for number in range(int(count))]


def is_same_but_for_compactions(trace, wanted):
    """Whether a trace is the wanted one, where every compaction is answered ok, or 8 by a node that is down."""
    if trace is None:
        return False
    others, down = [], set()
    for line in trace.splitlines():
        words = line.split()
        if words[0] == "compact":
            if line.split(" -> ")[1] != ("refused 8" if words[1] in down else "ok"):
                return False
        else:
            others.append(line)
            if words[0] == "tear":
                torn = words[1]
            if line.endswith(" -> refused 5"):
                down.add(torn)
            if words[0] == "restart" or words[0] == "replace" and line.endswith(" -> ok"):
                down.discard(words[1])
    return others == [line for line in wanted.splitlines() if not line.startswith("compact ")]


def shorter(name):
    wanted = golden(name + ".out")
    head, events, _ = read_trace(wanted)
    compactions = [f"compact {node}" for node in nodes_of(head)]
    texts = [event.text for event in events]
    everywhere = [line for text in texts for line in [text] + compactions]
    trace = call("run", script_of(head, compactions + everywhere))
    check(f"{name}, made shorter after every event", is_same_but_for_compactions(trace, wanted), trace)
    for at in range(len(texts) + 1):
        trace = call("run", script_of(head, texts[:at] + compactions + texts[at:]))
        check(f"{name}, made shorter after {at} events", is_same_but_for_compactions(trace, wanted), trace)


# ---- what is refused changes nothing

LONG_KEY, LONG_VALUE = "61" * 65, "62" * 257
# a branch that no row starts
STRANGER = "9:78:78"
# what a call that was done is answered at once after it
AGAIN = {("start", "0"): "-8", ("end", "0"): "-6", ("end", "100"): "-6", ("rollback", "0"): "-4"}
# the message Prepare of a transaction
PREPARE = "02010000000101740100000161"
# how many lines are refused about two rows, by hand: 44 about each event, and so many for each word of them
REFUSED_LINES = {
    # 3 put, 1 get, 2 start that are done, 1 commit, 1 deliver
    "busy_then_free": 8 * 44 + 3 * 4 + 3 + 2 * 1 + 1 + 0,
    # 2 rollback and 1 end that is done, 1 put, a start that is done and one that isn't, 1 commit, 1 deliver
    "rollback_only": 8 * 44 + 2 * 1 + 2 + 4 + 1 + 0 + 1 + 0,
}


def of_wrong_length(words):
    """A call on a key, with each of its words of a wrong length."""
    if words[0] not in ("put", "del", "get"):
        return []
    lines = [words[:3] + [key] + words[4:] for key in ("-", LONG_KEY)]
    return lines + [words[:4] + [LONG_VALUE]] if words[0] == "put" else lines


def of_no_branch(words):
    """A call on a branch, of one that isn't there."""
    return [words[:2] + [STRANGER] + words[3:]] if words[0] in ("put", "del", "get", "end", "rollback") else []


def of_strange_manager(words, managers):
    """An event of a transaction, of one that names a resource manager outside the cluster."""
    is_one = words[0] in ("view", "commit", "status", "timeout") and managers < 64
    return [words[:2] + [f"1:74/{managers}=61"]] if is_one else []


def place(name):
    """The place in the order of names of an XID, a transaction or a floor."""
    form, gtrid = re.match(r"(\d+):([0-9a-f]+|-)", name).groups()
    return int(form), bytes.fromhex(gtrid.strip("-"))


class Floors:
    """The floors of nodes, by the lines of a trace."""

    def __init__(self, managers):
        self.managers, self.notices, self.floors, self.told = managers, {}, {}, {}

    def rise(self, node, floor):
        self.floors[node] = max(self.floors.get(node, floor), floor)

    def take(self, event):
        """An event of the trace, and what it changed."""
        words = event.text.split()
        if words[0] in ("floor", "replace") and event.answer == "ok":
            self.rise(words[1], place(words[2]))
        if words[0] == "restart" or words[0] == "replace" and event.answer == "ok":
            self.told.pop(words[1], None)
        if words[0] == "hear" and event.answer == "ok":
            manager, node, floor = self.notices[words[1]]
            told = self.told.setdefault(node, {})
            told[manager] = max(told.get(manager, floor), floor)
            if len(told) == self.managers:
                self.rise(node, min(told.values()))
        for number, manager, node, floor in (line.split()[1:] for line in event.then if line.startswith("told ")):
            self.notices[number] = manager, node, place(floor)

    def is_below(self, node, name):
        return node in self.floors and place(name) < self.floors[node]


def at_no_node(nodes, sent, told):
    """Every event at the first node of each kind that isn't there, and of datagrams and notices that aren't there; and a resource manager
    that was to be replaced."""
    absent = {kind: kind + str(sum(node[0] == kind for node in nodes)) for kind in "alr"}
    calls = ["start {} 1:74:61", "put {} 1:74:61 6b 31", "put {} 1:74:61 - " + LONG_VALUE, "del {} 1:74:61 6b", "get {} 1:74:61 6b",
             "end {} 1:74:61", "end {} 1:74:61 fail", "rollback {} 1:74:61", "recover {}", "view {} 1:74/0=61", "timeout {} 1:74/0=61"]
    lines = [call.format(absent["r"]) for call in calls]
    lines += [f"{word} {absent['l']} 1:74/0=61" for word in ("commit", "status", "timeout")]
    lines += [f"floor {absent['r']} 1:74", "hear 0", f"hear {told + 1}", "replace r0 1:74"]
    for node in absent.values():
        lines += [f"{line} {node}" for line in ("restart", "compact")]
        lines += [f"{line[0]} {node} {line[1]}" for line in (("tear", 0), ("noise", "-"), ("noise", PREPARE), ("replace", "1:74"))]
    for number in (0, sent + 1):
        lines += [f"deliver {number}", f"lose {number}", f"cut {number} 0", f"cut {number} 99"]
    return lines


def refused_before(words, nodes, sent, down, floors):
    """Lines that are refused before an event, with their answers; some nodes are down then, some have floors."""
    lines = [f"{line} -> refused 15" for line in at_no_node(nodes, sent, len(floors.notices))]
    if words[1] not in nodes:
        return lines
    is_call = words[0] in ("put", "del", "get", "end", "rollback", "view")
    managers = sum(node[0] == "r" for node in nodes)
    for others, answer in ((of_wrong_length(words), "-5"), (of_no_branch(words), "-4"), (of_strange_manager(words, managers), "refused 2")):
        if words[1] in down:
            answer = "-7" if is_call else "refused 8"
        over = "refused 17" if words[0] in ("view", "commit", "status", "timeout") else "-4"
        for other in others:
            is_over = words[1] not in down and floors.is_below(words[1], other[2])
            lines.append(f"{' '.join(other)} -> {over if is_over else answer}")
    return lines


def refused_about(head, events):
    """For each event the lines that are refused before it, and those after it."""
    nodes, down, sent, about = nodes_of(head), set(), 0, []
    floors = Floors(sum(node[0] == "r" for node in nodes))
    for at, event in enumerate(events):
        words = event.text.split()
        before = refused_before(words, nodes, sent, down, floors)
        again = AGAIN.get((words[0], event.answer))
        about.append((before, [f"{event.text} -> {again}"] if again else []))
        sent += sum(line.startswith("sent ") for line in event.then)
        floors.take(event)
        if event.answer == "refused 5":
            down.add(reached(events[:at], event)[0])
        if words[0] == "restart" or words[0] == "replace" and event.answer == "ok":
            down.discard(words[1])
    return about


def trace_about(head, events, finals, about, places):
    """The trace of a row with what is refused about the events at some places."""
    lines = list(head)
    for at, event in enumerate(events):
        before, after = about[at] if at in places else ([], [])
        lines += before + event.lines() + after
    return "\n".join(lines + finals) + "\n"


def refuses_about(name):
    """Runs a row with what is refused about each event alone, and about all; answers how many lines are refused about all."""
    head, events, finals = read_trace(golden(name + ".out"))
    about = refused_about(head, events)
    everywhere = range(len(events))
    for places in [everywhere] + [[at] for at in everywhere if len(events) <= 60]:
        wanted = trace_about(head, events, finals, about, places)
        _, lines, _ = read_trace(wanted)
        trace = call("run", script_of(head, [line.text for line in lines]))
        check(f"{name}, with what is refused about the events from {list(places)[:1]} on", trace == wanted, trace)
    check(f"{name}, audited", call("audit", trace_about(head, events, finals, about, everywhere)) == "consistent\n")
    return sum(len(before) + len(after) for before, after in about)


def refuses():
    rows = sorted(name[:-4] for name in os.listdir(GOLDEN) if name.endswith(".out"))
    rows = [name for name in rows if not os.path.exists(os.path.join(GOLDEN, name + ".status"))]
    # these are of refusals themselves; what lines between them are answered is not worked out here
    rows = [name for name in rows if name not in ("limits", "refused_in_order", "two_managers")]
    counts = {name: refuses_about(name) for name in rows}
    print(f"{sum(counts.values())} lines refused in {len(rows)} rows")
    for name, count in REFUSED_LINES.items():
        check(f"lines refused in {name}", counts[name] == count, f"{counts[name]} were of {count}")


# ---- records in files

TX = {1: "00000001 0174 01 00 0161", 2: "00000001 0174 01 0000 0161"}
INSTANCE = {1: "00", 2: "0000"}


def frame(version, kind, behind="", has_tx=True, has_instance=False):
    body = f"{version:02x}{kind:02x}" + (TX[version] if has_tx else "") + (INSTANCE[version] if has_instance else "") + behind
    body = bytes.fromhex(body)
    return len(body).to_bytes(4, "big") + body


def both(*words, **others):
    """A frame in version 1 and in version 2."""
    return frame(1, *words, **others), frame(2, *words, **others)


PROMISE = both(1, "00000001", has_instance=True)
ACCEPT = both(2, "00000102 02", has_instance=True)
BALLOT = both(3, "00000001")
VOTE = both(4, "01 016b 01 0001 31")
VOTE_ABORTED, COMMITTED, ABORTED, PAST_COMMITTED, PAST_ABORTED = both(5), both(6), both(7), both(11), both(12)
PROMISE_ALL = both(8, "00000001")
SNAPSHOT, ROW = both(9, has_tx=False), both(10, "016b 0001 31", has_tx=False)
RECORDS = [
    ("a0", [PROMISE], ""), ("a0", [ACCEPT], ""), ("a0", [PROMISE, ACCEPT], ""), ("a0", [PROMISE_ALL], ""), ("l0", [BALLOT], ""),
    ("r0", [VOTE], "prepared"), ("r0", [VOTE, COMMITTED], "committed"), ("r0", [VOTE, ABORTED], "aborted"),
    ("r0", [VOTE_ABORTED], "aborted"), ("r0", [ABORTED], "aborted"), ("r0", [SNAPSHOT], "working"),
    ("r0", [SNAPSHOT, ROW, PAST_COMMITTED], "committed"), ("r0", [SNAPSHOT, ROW, PAST_ABORTED], "aborted"),
    ("r0", [SNAPSHOT, VOTE, COMMITTED], "committed"), ("r0", [], "working"), ("a0", [], ""), ("l0", [], ""),
]
REFUSED = [
    ("a0", [PROMISE, PROMISE]), ("a0", [BALLOT]), ("a0", [VOTE]), ("a0", [SNAPSHOT]), ("l0", [PROMISE]), ("l0", [COMMITTED]),
    ("r0", [PROMISE]), ("r0", [BALLOT]), ("r0", [COMMITTED]), ("r0", [VOTE, VOTE]), ("r0", [PAST_COMMITTED]), ("r0", [VOTE, SNAPSHOT]),
    ("r0", [SNAPSHOT, SNAPSHOT]), ("r0", [SNAPSHOT, ROW, ROW]), ("r0", [ROW]),
]
# the floors 1:74 and 1:75, which stand in front of records
FLOOR, HIGHER = bytes.fromhex("00000008020d000000010174"), bytes.fromhex("00000008020d000000010175")
FLOORED = [
    ("a0", FLOOR, [PROMISE], ""), ("a0", HIGHER, [], ""), ("l0", FLOOR, [BALLOT], ""), ("l0", HIGHER, [], ""), ("r0", FLOOR, [], "working"),
    ("r0", FLOOR, [VOTE], "prepared"), ("r0", FLOOR, [VOTE, COMMITTED], "committed"), ("r0", HIGHER, [], "refused 17"),
    ("r0", FLOOR, [SNAPSHOT, ROW, PAST_COMMITTED], "committed"), ("r0", HIGHER, [SNAPSHOT, ROW], "refused 17"),
]
# a second one, one behind another frame, one of the old version, one that is cut in its fields, and one with a byte more
REFUSED_FLOORS = [FLOOR + FLOOR, FLOOR + HIGHER, HIGHER + FLOOR, VOTE[1] + FLOOR, SNAPSHOT[1] + FLOOR,
                  *map(bytes.fromhex, ("00000008010d000000010174", "00000007020d0000000101", "00000009020d00000001017400"))]


def open_over(node, record, stops=False):
    """What the program says over a folder with this record of a node, and the record then; a replacement stops there, or not."""
    with tempfile.TemporaryDirectory() as folder:
        path = os.path.join(folder, node + ".rec")
        with open(path, "wb") as file:
            file.write(record)
        if stops:
            os.mkdir(path + ".new")
        script = os.path.join(scratch.name, "script")
        with open(script, "w") as file:
            file.write("cluster acceptors 1 leaders 1 rms 1\nview r0 1:74/0=61\n")
        done = subprocess.run([program, "udp", script, folder], capture_output=True, text=True)
        with open(path, "rb") as file:
            return done, file.read()


def is_opened(node, record, left, view):
    done, found = open_over(node, record)
    says = f"view r0 1:74/0=61 -> {view or 'working'}"
    return done.returncode == 0 and not done.stderr and says in done.stdout.splitlines() and found == left


def is_refused(node, record):
    done, found = open_over(node, record)
    return (done.returncode, done.stdout, done.stderr) == (3, "", "pcommit: refused 4\n") and found == record


def is_stopped(node, record, left):
    """Whether a record whose frames can't be written anew is refused, and has lost its tail alone."""
    done, found = open_over(node, record, stops=True)
    return (done.returncode, done.stdout, done.stderr) == (3, "", "pcommit: refused 5\n") and found == left


def records():
    runs = 0
    for node, frames, view in RECORDS:
        left = b"".join(second for _, second in frames)
        for versions in itertools.product(*frames):
            for tail in (b"", b"\0\0\0", b"\0\0\0\x14\2"):
                record = b"".join(versions) + tail
                check(f"{node} over {record.hex()}", is_opened(node, record, left, view), "it isn't opened so")
                runs += 1
        old = b"".join(first for first, _ in frames)
        if old:
            check(f"{node}, stopped over {old.hex()}", is_stopped(node, old + b"\0\0\0", old), "it isn't stopped so")
            check(f"{node} over {left.hex()}, stopped", is_opened(node, left, left, view), "it isn't opened")
            runs += 2
    for node, frames in REFUSED:
        for versions in itertools.product(*frames):
            record = b"".join(versions)
            check(f"{node} over {record.hex()}", is_refused(node, record), "it isn't refused so")
            runs += 1
    for node in ("a0", "l0", "r0"):
        for record in (bytes(4), b"\0\0\x80\1", b"\0\0\0\2\3\5", b"\0\0\0\2\2\0", b"\0\0\0\2\2\x0d"):
            check(f"{node} over {record.hex()}", is_refused(node, record), "it isn't refused so")
            runs += 1
    whole = VOTE[1] + COMMITTED[1]
    for length in range(len(whole) + 1):
        kept = whole if length == len(whole) else VOTE[1] if length >= len(VOTE[1]) else b""
        view = "committed" if kept == whole else "prepared" if kept else "working"
        check(f"a record cut at {length}", is_opened("r0", whole[:length], kept, view), "it isn't opened so")
        runs += 1
    print(f"{runs} records in files")


def floored_records():
    runs = 0
    for node, floor, frames, view in FLOORED:
        left = floor + b"".join(second for _, second in frames)
        for versions in itertools.product(*frames):
            for tail in (b"", b"\0\0\0", b"\0\0\0\x14\2"):
                record = floor + b"".join(versions) + tail
                check(f"{node} over {record.hex()}", is_opened(node, record, left, view), "it isn't opened so")
                runs += 1
    for record in REFUSED_FLOORS:
        check(f"r0 over {record.hex()}", is_refused("r0", record), "it isn't refused so")
        runs += 1
    for whole, floor in ((FLOOR + VOTE[1], FLOOR), (HIGHER + SNAPSHOT[1], HIGHER)):
        for length in range(len(whole) + 1):
            kept = whole if length == len(whole) else floor if length >= len(floor) else b""
            view = "prepared" if kept == FLOOR + VOTE[1] else "refused 17" if kept.startswith(HIGHER) else "working"
            check(f"a record with a floor cut at {length}", is_opened("r0", whole[:length], kept, view), "it isn't opened so")
            runs += 1
    print(f"{runs} records with floors")


def cut_traces():
    """Each beginning of a trace is refused at its last line, or at the one that is missing."""
    whole = golden("dropped_writes.out")
    path = os.path.join(scratch.name, "text")
    for length in range(len(whole)):
        with open(path, "w") as file:
            file.write(whole[:length])
        done = subprocess.run([program, "audit", path], capture_output=True, text=True)
        line = whole[:length].count("\n") + 1
        is_refused_so = (done.returncode, done.stdout, done.stderr) == (3, "", f"pcommit: refused 7 line {line}\n")
        check(f"a trace cut at {length}", is_refused_so, "it isn't refused so")
    print(f"{len(whole)} traces cut")


torn_votes()
for row, tears in TORN_ROWS.items():
    torn_appends(row, tears)
for row in SHORTER_ROWS:
    shorter(row)
refuses()
records()
floored_records()
cut_traces()
end()
