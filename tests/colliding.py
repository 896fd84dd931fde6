#!/usr/bin/env python3
"""Names and keys that collide: under `WordHasher` and `hash_of` of crates/hashing with the fixed key, and under `FoldHasher`, by which the
kit's maps hash where nothing else is said. They are made of what collisions.txt has. `tests/colliding.py` looks whether they collide;
`tests/colliding.py TOOL` first searches what isn't there, with tools/collisions.c built at TOOL, and adds it.

All names of a family are of one shape: bytes that are the same in each, and places where one of two strings stands, either of which takes
the hasher from the state that it has there to one and the same. So n such places make 2^n names of one hash. Where bytes are too few for
that, as those of keys, or such strings take long to find, the last eight are of many strings, ends, which the hasher takes to hashes of
which a map sees the same 32 bits, or looks at the same. The components of XIDs are written at once, other bytes one by one."""
import copy
import io
import os
import random
import subprocess
import sys
import textwrap

FILE = os.path.join(os.path.dirname(os.path.realpath(__file__)), "collisions.txt")
COUNT = 20480
MASK = (1 << 64) - 1
# the bits of a hash, of the 32 that a map sees, that ends have the same
BITS = {"slice-ends": 0xFFFFFFFF, "word-ends": 0xFFFFFFFF, "string-ends": 0xFFFFFFFF, "few-ends": 0xFF000FFF}
MULTIPLIER = 0x9E3779B97F4A7C15
FIRST = 0x243F6A8885A308D3


def folded_multiply(a, b):
    product = a * b
    return product & MASK ^ product >> 64


def mixed(state, word):
    return folded_multiply(state ^ word, MULTIPLIER) ^ (state << 23 & MASK | state >> 41)


def all_taken(state, data):
    """A state into which bytes are taken by words of eight, and the last eight once more."""
    for at in range(0, len(data) - 7, 8):
        state = mixed(state, int.from_bytes(data[at:at + 8], "little"))
    return mixed(state, int.from_bytes(data[-8:], "little" if len(data) >= 8 else "big"))


def hash_of(data, first=FIRST):
    """The hash by which a transaction is first found, of its spelled bytes. Once its key's first word was 0."""
    return all_taken(first ^ len(data), data)


def seen(hash):
    """The 32 bits of a hash that a map sees."""
    return (hash ^ hash >> 32) & 0xFFFFFFFF


class Hasher:
    """What takes writes one after the other. STEP is how many bytes a pair's strings have, of those that are written one by one."""

    def write_each(self, data):
        """Writes bytes one by one, as the elements of a slice are."""
        for byte in data:
            self.write(bytes([byte]))


class WordHasher(Hasher):
    """As crates/hashing/src/words.rt has it, with the fixed key."""
    STEP = 7

    def __init__(self):
        self.state, self.word = FIRST, 1

    def write(self, data):
        if len(data) == 8:
            self.state = mixed(self.state, int.from_bytes(data, "little"))
            return
        if len(data) > 8:
            self.state = all_taken(self.state, data)
            return
        for byte in data:
            self.word = self.word << 8 | byte
            if self.word >> 56:
                self.state, self.word = mixed(self.state, self.word), 1

    def finish(self):
        return mixed(self.state, self.word)

    def slice_parts(self, length, found):
        """What may stand in each place of bytes that are written at once: a pair for each word but the last, which is taken twice. There
        it is two ends."""
        assert length % 8 == 0
        state, parts = self.state, []
        for _ in range(length // 8 - 1):
            parts.append([number(state ^ word) for word in found.get("words", 0)])
            state = mixed(state, int.from_bytes(parts[-1][0], "little"))
        return parts + [self.two_ends(state)]

    def two_ends(self, state):
        """Two last words of which a map sees the same 32 bits, if nothing is written behind them."""
        ends = {}
        for word in range(1 << 20):
            hash = seen(mixed(mixed(mixed(state, word), word), self.word))
            if hash in ends:
                return [number(ends[hash]), number(word)]
            ends[hash] = word
        raise SystemExit("no two ends")

    def is_between(self):
        """Whether all bytes are taken into the state."""
        return self.word == 1

    def pair(self, found):
        """Two strings of STEP bytes that take it to one state."""
        words = [self.state ^ word for word in found.get("words", self.state >> 56 ^ 1)]
        return [word.to_bytes(8, "big")[1:] for word in words]


class BytesHasher(Hasher):
    """`hash_of` with the fixed key, of bytes whose length is written first."""
    STEP = 8

    def __init__(self):
        self.state, self.taken = FIRST, b""

    def write(self, data):
        if len(data) == 8:
            self.state ^= int.from_bytes(data, "little")
            return
        self.taken += data
        if len(self.taken) % 8 == 0:
            self.state = mixed(self.state, int.from_bytes(self.taken[-8:], "little"))

    def finish(self):
        return mixed(self.state, int.from_bytes(self.taken[-8:], "little"))

    def is_between(self):
        return len(self.taken) % 8 == 0

    def pair(self, found):
        return [number(self.state ^ word) for word in found.get("words", 0)]


class FoldHasher(Hasher):
    """As the kit has it."""
    STEP = 8

    def __init__(self):
        self.state = FIRST

    def write(self, data):
        length = len(data)
        if length > 8:
            assert length % 16 == 0
            self.state = self.state + length & MASK
            for at in range(0, length, 16):
                first, second = (int.from_bytes(data[at + more:at + more + 8], "little") for more in (0, 8))
                self.state = folded_multiply(first ^ self.state, second ^ MULTIPLIER)
            return
        if length >= 4:
            word = int.from_bytes(data[:4], "little") | int.from_bytes(data[-4:], "little") << 32
        else:
            word = data[0] | data[length // 2] << 8 | data[-1] << 16
        self.state = folded_multiply(self.state ^ word, MULTIPLIER ^ 2 * length)

    def finish(self):
        return self.state

    def is_between(self):
        return True

    def pair(self, found):
        return [number(word) for word in found.get("strings", self.state, self.state)]

    def slice_parts(self, length, found):
        """What may stand in each place of bytes that are written at once: the first eight are any, since the next make a factor zero."""
        return [[number(first) + number(MULTIPLIER) for first in range(COUNT)], [bytes(length - 16)]]


class Found:
    """What collisions.txt has: for a search, as `words 37`, its numbers. With a tool it searches what isn't there."""

    def __init__(self, tool=None):
        self.tool, self.lines, self.used = tool, {}, set()
        if os.path.exists(FILE):
            with open(FILE) as file:
                for line in file.read().replace("\n ", " ").splitlines():
                    search, numbers = line.split(": ")
                    self.lines[search] = [int(number, 16) for number in numbers.split()]

    def get(self, kind, state, more=None):
        """What a search finds, as the tool has it."""
        words = [kind, f"{state:02x}" if kind == "words" else f"{state:016x}"]
        if more is not None:
            words.append(f"{more:016x}" if kind == "strings" else str(more))
        search = " ".join(words)
        if search not in self.lines:
            if not self.tool:
                raise SystemExit(f"collisions.txt has no {search}")
            numbers = subprocess.run([self.tool] + words, capture_output=True, text=True, check=True).stdout.split()
            self.lines[search] = [int(number, 16) for number in numbers]
            with open(FILE, "a") as file:
                self.write(file, search)
        self.used.add(search)
        return self.lines[search]

    def write(self, file, search):
        """Writes a search, and its numbers; lines that go on with them begin with a space."""
        text = f"{search}: {' '.join(f'{number:x}' for number in self.lines[search])}"
        file.write("\n".join(textwrap.wrap(text, 138, subsequent_indent=" ")) + "\n")

    def keep_used(self):
        """Writes the file anew, of what was asked for."""
        with open(FILE, "w") as file:
            for search in sorted(self.used):
                self.write(file, search)


# ---- what is written to a hasher: for each write its bytes, None for a byte that is free, and a number for so many of these at once

def each(data):
    return [bytes([byte]) for byte in data]


def number(value, size=8):
    return value.to_bytes(size, "little")


def of_bytes(items):
    """A slice: its length, and its bytes one by one."""
    return [number(len(items))] + items


FREE = [None] * 64
XID = [number(1, 4), number(64), 64, number(64), 64]
# of the auditor: the resource manager's number, and an XID
NAME = [number(0, 1)] + XID
KEY = of_bytes(FREE)


def spelled(gtrid, bquals):
    """The spelled bytes of a transaction of format 1."""
    items = each([0, 0, 0, 1, len(gtrid)]) + gtrid + each([len(bquals)])
    for rm, bqual in enumerate(bquals):
        items += each([0, rm, len(bqual)]) + bqual
    return of_bytes(items)


# ---- families

class Family:
    """Names of one shape that collide, or keys. `parts` has for each place of their free bytes all that may stand there; `before` stands
    in each before these."""

    def __init__(self, what, hasher, shape, found, ends=(None, 1), before=b""):
        self.what, self.hasher, self.shape, self.before, self.parts = what, hasher, shape, before, []
        kind, count = ends
        self.bits = BITS.get(kind)
        pairs = (COUNT // count - 1).bit_length()
        state, at = hasher(), 0
        while at < len(shape):
            if isinstance(shape[at], int):
                parts = state.slice_parts(shape[at], found)
                if at + 1 < len(shape):
                    # only behind the last nothing is written
                    parts[-1] = parts[-1][:1]
                self.parts += parts
                state.write(b"".join(strings[0] for strings in parts))
                at += 1
                continue
            if shape[at] is not None:
                state.write(shape[at])
                at += 1
                continue
            if pairs and state.is_between() and shape[at:at + state.STEP] == [None] * state.STEP:
                strings, pairs = state.pair(found), pairs - 1
            elif kind and len(shape) - at == 8:
                strings = [end.to_bytes(8, "big") for end in found.get(kind, state.state, count)]
            else:
                strings = [b"\0"]
            self.parts.append(strings)
            state.write_each(strings[0])
            at += len(strings[0])

    def free(self, place):
        """The free bytes of the one of a place."""
        chosen = []
        for strings in self.parts:
            place, which = divmod(place, len(strings))
            chosen.append(strings[which])
        return b"".join(chosen)

    def names(self):
        return [self.before + self.free(place) for place in range(COUNT)]

    def by_chance(self):
        """Names of the same shape, with as many strings at each place, all by chance: these don't collide."""
        other, chance = copy.copy(self), random.Random(1)
        other.before = chance.randbytes(len(self.before))
        other.parts = [[chance.randbytes(len(string)) for string in strings] for strings in self.parts]
        return other

    def written(self, free):
        """All that is written of one with these free bytes."""
        rest, written = io.BytesIO(free), []
        for write in self.shape:
            if write is None or isinstance(write, int):
                write = rest.read(write or 1)
            written.append(write)
        return written

    def hash(self, free):
        state = self.hasher()
        for write in self.written(free):
            state.write(write)
        return state.finish()

    def collides(self, places):
        """Whether those of some places are distinct, and have one hash, or the same bits of it where they have ends."""
        some = [self.free(place) for place in places]
        hashes = {self.hash(free) for free in some}
        if self.bits:
            hashes = {seen(hash) & self.bits for hash in hashes}
        return len(set(some)) == len(some) and len(hashes) == 1


class Families:
    """All that the tests use."""

    def __init__(self, found):
        # a word of eight bytes in the gtrid, of which hash_of takes either to one state, whatever follows. Behind it stands the first
        gtrid = each(bytes(3)) + [None] * 58
        head = bytes([0, 0, 0, 1, len(gtrid), 0, 0, 0])
        state = mixed(9 + len(gtrid) + len(FREE), int.from_bytes(head, "little"))
        self.words = [number(state ^ word) for word in found.get("words", 0)]
        gtrid[3:11] = each(self.words[0])
        self.of_words = {
            "transactions": Family("transactions", WordHasher, spelled(gtrid, [FREE]), found, before=bytes(3) + self.words[0]),
            "xids": Family("xids", WordHasher, XID, found, ends=("slice-ends", 2)),
            "names": Family("names", WordHasher, NAME, found, ends=("slice-ends", 2)),
            "keys": Family("keys", WordHasher, KEY, found, ends=("word-ends", 80)),
        }
        # the last eight bytes are a word once more, and so are the same in all
        self.of_bytes = {"transactions": Family("transactions", BytesHasher, spelled(FREE, [FREE, [None] * 20]), found)}
        self.of_folds = {
            "xids": Family("xids", FoldHasher, XID, found),
            "names": Family("names", FoldHasher, NAME, found),
            "keys": Family("keys", FoldHasher, KEY, found, ends=("few-ends", 5120)),
            "transactions": Family("transactions", FoldHasher, spelled(FREE, [FREE]), found, ends=("few-ends", 5120)),
        }

    def by_hasher(self):
        return {"WordHasher": self.of_words, "hash_of": self.of_bytes, "FoldHasher": self.of_folds}

    def are_twins(self, places):
        """Whether `hash_of`, before it was keyed, is the same of both."""
        family = self.of_words["transactions"]
        seconds = [b"".join(family.written(family.free(place))[1:]) for place in places]
        return all(hash_of(second, 0) == hash_of(second[:8] + self.words[1] + second[16:], 0) for second in seconds)


def twins(family, word):
    """The transactions of a family, each behind one that has another word in its gtrid, which `hash_of`, before it was keyed, took to the
    same state: where both are known, the second isn't found by that hash."""
    return [twin for name in family.names() for twin in (name[:3] + word + name[11:], name)]


def main(tool=None):
    found = Found(tool)
    families = Families(found)
    if tool:
        found.keep_used()
    places = range(COUNT)
    is_right = families.are_twins(places)
    print(f"twins: {'the same' if is_right else 'NOT the same'} hash_of")
    for hasher, some in families.by_hasher().items():
        for what, family in some.items():
            collide = family.collides(places)
            is_right &= collide
            bits = f"bits {family.bits:08x} of the 32 that a map sees" if family.bits else "64 bits"
            print(f"{what} of {hasher}: {COUNT} {'collide' if collide else 'do NOT collide'} in the {bits}")
    sys.exit(0 if is_right else 1)


if __name__ == "__main__":
    main(*sys.argv[1:])
