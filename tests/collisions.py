#!/usr/bin/env python3
"""Runs the built programs over names and keys that collide under hashers whose seed is known, and over as many by chance, of the same
shape: `tests/collisions.py PCOMMIT PCOMMIT_NODE`. With those that collide a program takes no more than 1.3 times as long: the time of
processors, by turns, the least of each. A machine that does other things too makes a turn dear, never cheap, so turns go on, up to 25,
while the least of those that collide is above that. What collides is in colliding.py. The last line is 'N passed, M failed'."""
import os
import random
import resource
import socket
import subprocess
import sys
import tempfile

TESTS = os.path.dirname(os.path.realpath(__file__))
sys.path.insert(0, os.path.join(TESTS, "cluster"))
from checks import check, end
from colliding import COUNT, Families, Found, twins
from processes import Processes

PCOMMIT, NODE = (os.path.realpath(path) for path in sys.argv[1:3])
MOST = 1.3
TURNS = 25
# places of names of which it is looked whether they collide: of each string of each place in them there is one
SOME = range(0, COUNT, 39)
# no busy machine makes so much of it
BEYOND = 3
# keys that a branch may touch
TOUCHED = 64
# the end of a trace whose tables are empty
FINAL = ["final r0", "final r1"]


def children_time():
    """The processor seconds of all processes that were started, and have ended."""
    usage = resource.getrusage(resource.RUSAGE_CHILDREN)
    return usage.ru_utime + usage.ru_stime


def compare(name, *works):
    """Compares the times of the processes of two works, which it calls by turns: the first takes hardly longer."""
    times = [[], []]
    for turn in range(TURNS):
        for work, taken in zip(works, times):
            begun = children_time()
            work()
            taken.append(children_time() - begun)
        ratio = min(times[0]) / min(times[1])
        if ratio > BEYOND or turn > 0 and ratio <= MOST:
            break
    told = f"{min(times[0]):.3f} s, beside {min(times[1]):.3f} s by chance, {ratio:.2f} times"
    print(f"{name}: {told}", flush=True)
    check(name, ratio <= MOST, told)


# ---- names: the bytes of a gtrid, and of a bqual behind it

def shuffled(items):
    items = list(items)
    random.Random(2).shuffle(items)
    return items


def xid(name):
    return f"1:{name[:64].hex()}:{name[64:].hex()}"


def transaction(name):
    """One with branches at resource managers 0 and 1, or at 0 alone, whose bqual has 64 bytes."""
    at = 64 if len(name) > 128 else len(name) - 64
    gtrid, bquals = name[:at], [name[at:at + 64], name[at + 64:]]
    return f"1:{gtrid.hex()}/" + ",".join(f"{rm}={bqual.hex()}" for rm, bqual in enumerate(bquals) if bqual)


# ---- scripts and traces

def call(word, path):
    """Calls the program over a file."""
    with open(path + ".out", "wb") as out:
        subprocess.run([PCOMMIT, word, path], stdout=out, check=True)


def compare_files(folder, word, what, lines_of, colliding, others):
    """Compares a call of the program over lines with names that collide with one over lines with others."""
    paths = []
    for kind, names in (("colliding", colliding), ("others", others)):
        paths.append(os.path.join(folder, kind))
        with open(paths[-1], "w") as file:
            file.write("\n".join(["cluster acceptors 1 leaders 1 rms 2"] + lines_of(names)) + "\n")
    compare(f"{word}, {what}", *(lambda path=path: call(word, path) for path in paths))
    for path in paths:
        with open(path + ".out", "rb") as out:
            check(f"{word}, {what}: nothing is refused", b" -> refused" not in out.read())


def transactions(names):
    """A leader is asked to commit each transaction, and the resource manager hears of it; then the leader is asked where each stands."""
    texts = [transaction(name) for name in names]
    return [f"commit l0 {text}" for text in texts] + [f"flow {len(texts)}"] + [f"status l0 {text}" for text in shuffled(texts)]


def branches(names):
    """Branches are started, and ended; then each is prepared, which spends its name."""
    starts, ends = [f"start r0 {xid(name)}" for name in names], [f"end r0 {xid(name)}" for name in shuffled(names)]
    return starts + ends + [f"commit l0 {transaction(name)}" for name in names] + [f"flow {len(names)}"]


def puts(keys):
    """Half of the keys are in the table. Branches put all, and are rolled back."""
    rows = " ".join(f"{key.hex()}=76" for key in keys[::2])
    touched = {f"1:{place:04x}:61": keys[place:place + TOUCHED] for place in range(0, len(keys), TOUCHED)}
    lines = [f"table r0 {rows}"] + [f"start r0 {branch}" for branch in touched]
    lines += [f"put r0 {branch} {key.hex()} 77" for branch, some in touched.items() for key in some]
    return lines + [f"{call} r0 {branch}" for branch in touched for call in ("end", "rollback")]


def aborted(names):
    """The trace of nodes that tell only that each transaction was prepared, and then aborted."""
    texts = [transaction(name) for name in names]
    moves = [f"{text} prepared" for text in texts] + [f"{text} aborted" for text in shuffled(texts)]
    return [line for move in moves for line in ("serve r0 -> ok", f"now r0 {move}")] + FINAL


def stretches(names):
    """The trace of branches that are started, in each of which then a key is got."""
    texts = [xid(name) for name in names]
    return [f"start r0 {text} -> 0" for text in texts] + [f"get r0 {text} 6b -> none" for text in shuffled(texts)] + FINAL


# ---- nodes

class Client:
    """A client of a node."""

    def __init__(self, place):
        self.end = socket.create_connection(place, timeout=60)
        self.answers = self.end.makefile("rb")

    def ask(self, lines):
        """Writes lines, some at a time, and reads what is answered to each."""
        answered = []
        for at in range(0, len(lines), 128):
            some = lines[at:at + 128]
            self.end.sendall("".join(line + "\n" for line in some).encode())
            answered += [self.answers.readline().decode().rstrip("\n") for _ in some]
        return answered

    def close(self):
        self.answers.close()
        self.end.close()


def serve(folder, name, lines, wanted, last):
    """A node answers lines of a client, and at last one more; the others of its cluster aren't there."""
    with tempfile.TemporaryDirectory(dir=folder) as where:
        with Processes(NODE, where, tables=({}, {}), acceptors=1, leaders=1, key=None, client_key=None, clock={"ask": 60000}) as cluster:
            cluster.start(name)
            client = Client(cluster.clients[name])
            answers, told = set(client.ask(lines)), client.ask([last])[0]
        # once the node is killed: else it would roll back what the client has left
        client.close()
    if answers != wanted or told.startswith("refused"):
        raise SystemExit(f"{name} answers {answers}, and {told[:100]}")


def compare_nodes(folder, name, what, lines_of, wanted, last, colliding, others):
    """Compares a node of this name whose client has names that collide with one whose client has others."""
    works = [lambda lines=lines_of(names): serve(folder, name, lines, wanted, last) for names in (colliding, others)]
    compare(f"{name}, {what}", *works)


def active(names):
    """Branches are started; then in each a key is got."""
    return [f"start r0 {xid(name)}" for name in names] + [f"get r0 {xid(name)} 6b" for name in shuffled(names)]


def watched(names):
    """Transactions that a leader is asked to commit, and that it watches from then on."""
    return [f"commit l0 {transaction(name)}" for name in names]


def main():
    families = Families(Found())
    check("twins have one hash", families.are_twins(SOME))
    for hasher, some in families.by_hasher().items():
        for what, family in some.items():
            check(f"{what} of {hasher} collide", family.collides(SOME))
    with tempfile.TemporaryDirectory() as folder:
        family = families.of_words["transactions"]
        names = twins(family, families.words[1]), twins(family.by_chance(), bytes(8))
        compare_files(folder, "run", "transactions (WordHasher)", transactions, *names)
        compare_files(folder, "audit", "transactions (WordHasher)", aborted, *names)
        for hasher, some in families.by_hasher().items():
            of = {what: (family.names(), family.by_chance().names()) for what, family in some.items()}
            if hasher == "hash_of":
                compare_files(folder, "run", f"transactions ({hasher})", transactions, *of["transactions"])
                compare_files(folder, "audit", f"transactions ({hasher})", aborted, *of["transactions"])
                continue
            compare_files(folder, "run", f"branches ({hasher})", branches, *of["xids"])
            compare_files(folder, "run", f"keys ({hasher})", puts, *of["keys"])
            compare_files(folder, "audit", f"branches ({hasher})", stretches, *of["names"])
            compare_nodes(folder, "r0", f"branches ({hasher})", active, {"0", "none"}, "recover r0", *of["xids"])
            compare_nodes(folder, "l0", f"watches ({hasher})", watched, {"undecided"}, "open l0", *of["transactions"])
    end()


main()
