#!/usr/bin/env python3
"""soak_check.py FOLDER TRACE: reads the records of the resource managers in a folder, byte by byte, and the tables of a trace that was
printed after they were written. Says what is wrong: a transaction that is committed at one manager and aborted at another, or a table that
isn't its first contents with the writes of its committed branches. It shares no code with the program; docs/FORMATS.md has the formats."""
import os
import sys


def frames(data):
    """The bodies of the whole frames, and how many bytes are left."""
    at = 0
    while len(data) - at >= 4:
        size = int.from_bytes(data[at:at + 4], 'big')
        if not 1 <= size <= 32768:
            raise ValueError('a frame of %d bytes' % size)
        if len(data) - at - 4 < size:
            break
        yield data[at + 4:at + 4 + size]
        at += 4 + size


class Reader:
    def __init__(self, data):
        self.data, self.at = data, 0

    def take(self, count):
        if self.at + count > len(self.data):
            raise ValueError('a body that is too short')
        self.at += count
        return self.data[self.at - count:self.at]

    def number(self, count):
        return int.from_bytes(self.take(count), 'big')


def transaction(reader, width):
    name = (reader.number(4), reader.take(reader.number(1)))
    return name + (tuple((reader.number(width), reader.take(reader.number(1))) for _ in range(reader.number(1))),)


def keys(reader):
    for _ in range(reader.number(1)):
        key = reader.take(reader.number(1))
        act = reader.number(1)
        yield key, act, reader.take(reader.number(2)) if act == 1 else None


def manager(data, rows):
    """The outcomes of a manager's transactions, and its table, by its record."""
    votes, outcomes = {}, {}
    for body in frames(data):
        reader = Reader(body)
        width = {1: 1, 2: 2}[reader.number(1)]
        kind = reader.number(1)
        if kind == 9:
            rows.clear()
            continue
        # a floor, in front of all
        if kind == 13:
            continue
        if kind == 10:
            key = reader.take(reader.number(1))
            rows[key] = reader.take(reader.number(2))
            continue
        tx = transaction(reader, width)
        if kind == 4:
            votes[tx] = list(keys(reader))
        elif kind == 5:
            votes[tx] = None
            outcomes[tx] = 'aborted'
        elif kind == 6:
            if votes.get(tx) is None:
                raise ValueError('committed without a vote')
            outcomes[tx] = 'committed'
            for key, act, value in votes[tx]:
                if act == 1:
                    rows[key] = value
                elif act == 2:
                    rows.pop(key, None)
        elif kind in (7, 12):
            outcomes[tx] = 'aborted'
        elif kind == 11:
            outcomes[tx] = 'committed'
        else:
            raise ValueError('a fact of kind %d' % kind)
    return votes, outcomes


def table(words):
    return {bytes.fromhex(key): b'' if value == '-' else bytes.fromhex(value) for key, value in (word.split('=') for word in words)}


def main():
    folder, trace = sys.argv[1:]
    first, final = {}, {}
    for line in open(trace):
        words = line.split()
        if words[0] in ('table', 'final'):
            (first if words[0] == 'table' else final)[int(words[1][1:])] = table(words[2:])
    wrong, outcomes, unsettled = 0, {}, 0
    for rm in sorted(final):
        rows = dict(first.get(rm, {}))
        votes, ended = manager(open(os.path.join(folder, 'r%d.rec' % rm), 'rb').read(), rows)
        unsettled += sum(tx not in ended for tx in votes)
        for tx, outcome in ended.items():
            if outcomes.setdefault(tx, outcome) != outcome:
                print('r%d: %s is %s here and not so elsewhere' % (rm, tx, outcome))
                wrong += 1
        if rows != final[rm]:
            print('r%d: its table is %s, and by its record it is %s' % (rm, final[rm], rows))
            wrong += 1
    committed = sum(outcome == 'committed' for outcome in outcomes.values())
    print('%d transactions were committed, %d aborted, %d votes are unsettled' % (committed, len(outcomes) - committed, unsettled))
    return wrong != 0 or committed == 0


if __name__ == '__main__':
    sys.exit(main())
