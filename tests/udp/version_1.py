#!/usr/bin/env python3
"""version_1.py FOLDER: writes records of version 1, as a program of that version left them: a manager that voted prepared on one transaction,
aborted on a second, and committed and aborted others; a compacted manager; an acceptor that accepted the votes and promised; a leader that
began a ballot. docs/FORMATS.md has the form; this shares no code with the program."""
import os
import sys


def tx(gtrid, managers):
    """Format 1, with branch 61 at each manager, whose number has one byte."""
    return b'\0\0\0\1' + bytes([len(gtrid)]) + gtrid + bytes([len(managers)]) + b''.join(bytes([rm, 1, 0x61]) for rm in managers)


def frame(kind, body):
    return len(body + b'..').to_bytes(4, 'big') + bytes([1, kind]) + body


def ballot(number):
    return number.to_bytes(4, 'big')


def put(key, value):
    return bytes([len(key)]) + key + b'\1' + len(value).to_bytes(2, 'big') + value


def touched(*keys):
    return bytes([len(keys)]) + b''.join(keys)


PROMISE, ACCEPT, BALLOT, PREPARED, VOTED_ABORTED, COMMITTED, ABORTED, PROMISE_ALL, SNAPSHOT, ROW, PAST_COMMITTED, PAST_ABORTED = range(1, 13)
T, U, V, W, X = tx(b't', [0, 1]), tx(b'u', [0]), tx(b'v', [0, 1]), tx(b'w', [0]), tx(b'x', [1])
records = {
    # the acceptor has both votes on T, and only the first manager's on V, where it has promised the other instance to ballot 1
    'a0': frame(ACCEPT, T + b'\0' + ballot(0) + b'\1') + frame(ACCEPT, T + b'\1' + ballot(0) + b'\1')
    + frame(ACCEPT, V + b'\0' + ballot(0) + b'\1') + frame(PROMISE, V + b'\1' + ballot(1)) + frame(PROMISE_ALL, U + ballot(1)),
    'l0': frame(BALLOT, V + ballot(1)),
    'r0': frame(PREPARED, W + touched(put(b'k', b'1'), b'\1m\2')) + frame(COMMITTED, W)
    + frame(PREPARED, T + touched(put(b'k', b'2'))) + frame(VOTED_ABORTED, U) + frame(PREPARED, V + touched(b'\1n\0')),
    'r1': frame(SNAPSHOT, b'') + frame(ROW, b'\1k\0\0019') + frame(PREPARED, T + touched(put(b'q', b''))) + frame(PAST_COMMITTED, X)
    + frame(PAST_ABORTED, tx(b'y', [1])) + frame(ABORTED, tx(b'z', [1])) + b'\0\0\0\7\1',
}
for name, data in records.items():
    with open(os.path.join(sys.argv[1], name + '.rec'), 'wb') as record:
        record.write(data)
