#!/usr/bin/env python3
"""hostile.py PROGRAM FOLDER: the messages of all golden runs come to nodes broken: cut at each byte, with a byte after them, with each byte
complemented, whole; and so do datagrams of up to 65,507 bytes. By `run`, and by `udp` over a new folder in FOLDER, what spells no message
is refused 3, what spells one is refused 14, since a script forges none, and nothing changes. What spells one is decided here, by
docs/FORMATS.md, and no code is shared with the program. The last line is 'N passed, M failed'."""
import glob
import os
import subprocess
import sys

program, folder = sys.argv[1:]
VALUES = {'none': 0, 'prepared': 1, 'aborted': 2}
NODES = ['a0', 'l0', 'r0']
HEAD = 'cluster acceptors 1 leaders 1 rms 1\n'


def number(value, width):
    return value.to_bytes(width, 'big')


def tx_bytes(text):
    name, branches = text.split('/')
    form, gtrid = name.split(':')
    branches = [branch.split('=') for branch in branches.split(',')]
    short = lambda text: bytes([len(text) // 2]) + bytes.fromhex(text)
    return number(int(form), 4) + short(gtrid) + bytes([len(branches)]) + b''.join(number(int(rm), 2) + short(x) for rm, x in branches)


def accepted(bal, val):
    return number(int(bal), 4) + bytes([VALUES[val]])


def item(text):
    words = text.split(':')
    return number(int(words[0][1:]), 2) + (accepted(0, 'none') if words[1] == 'none' else accepted(words[1], words[2]))


def spelled(words):
    """The bytes of a message, from its words in a trace."""
    name, tx, rest = words[0], tx_bytes(words[1]), words[2:]
    kind = ['', 'prepare', 'p1a', 'p1b', 'p2a', 'p2b', 'commit', 'abort', 'ask', '', 'b1a', 'b1b', 'b2b'].index(name)
    if name in ('b1a', 'b1b'):
        body = number(int(rest.pop(0)), 4)
    elif name in ('p1a', 'p1b', 'p2a', 'p2b'):
        body = number(int(rest[0][1:]), 2) + number(int(rest[1]), 4)
        rest = rest[2:]
    else:
        body = number(int(rest[0][1:]), 2) if name == 'ask' else b''
    if name in ('b1b', 'b2b'):
        body += bytes([int(rest[0][1:]), len(rest) - 1]) + b''.join(map(item, rest[1:]))
    elif name == 'p1b':
        body += (accepted(0, 'none') if rest[0] == 'none' else accepted(rest[0], rest[1])) + bytes([int(rest[-1][1:])])
    elif name in ('p2a', 'p2b'):
        body += bytes([VALUES[rest[0]]]) + (bytes([int(rest[1][1:])]) if name == 'p2b' else b'')
    return bytes([2, kind]) + tx + body


class Bad(Exception):
    pass


def spells(data):
    """Whether bytes spell a message."""
    at = 0

    def take(width):
        nonlocal at
        at += width
        if at > len(data):
            raise Bad
        return data[at - width:at]

    def value(width, low, high):
        found = int.from_bytes(take(width), 'big')
        if not low <= found <= high:
            raise Bad
        return found

    def instance(above=-1):
        rm = value(2, above + 1, 63)
        if rm not in managers:
            raise Bad
        return rm

    def report(ballot):
        bal = value(4, 0, 2**32 - 1)
        if value(1, 0, 2) == 0 and bal != 0 or data[at - 1] != 0 and bal >= ballot:
            raise Bad

    def items(each):
        last = -1
        for _ in range(value(1, 1, 255)):
            last = instance(last)
            each()

    try:
        value(1, 2, 2)
        kind = value(1, 1, 12)
        value(4, 0, 2**31 - 1)
        take(value(1, 1, 64))
        managers = []
        for _ in range(value(1, 1, 16)):
            managers.append(value(2, managers[-1] + 1 if managers else 0, 63))
            take(value(1, 1, 64))
        if kind == 9:
            raise Bad
        if kind in (2, 3, 4, 5, 8):
            instance()
        ballot = value(4, 0 if kind in (4, 5) else 1, 2**32 - 1) if kind in (2, 3, 4, 5, 10, 11) else 0
        if kind == 3:
            report(ballot)
        if kind in (4, 5):
            value(1, 1, 2)
        if kind in (3, 5, 11, 12):
            value(1, 0, 6)
        if kind == 11:
            items(lambda: report(ballot))
        if kind == 12:
            items(lambda: (take(4), value(1, 1, 2)))
    except Bad:
        return False
    return at == len(data) <= 1400


def broken(message):
    yield from (message[:cut] for cut in range(len(message)))
    yield message + b'\0'
    yield from (message[:at] + bytes([255 - message[at]]) + message[at + 1:] for at in range(len(message)))
    yield message


messages = set()
for name in glob.glob(os.path.join(os.path.dirname(os.path.abspath(__file__)), 'golden', '*.out')):
    for line in open(name):
        if line.startswith('sent '):
            messages.add(spelled(line.split()[4:]))
cases = sorted({case for message in messages for case in broken(message)})
cases += [b'\0' * 1400, b'\0' * 1401, b'\2' * 1402, max(messages, key=len).ljust(1401, b'\0'), b'\0' * 9000, b'\0' * 65507]
forged = [spells(case) for case in cases]
assert all(map(spells, messages)) and 0 < sum(forged) < len(cases)
script, run, udp = [HEAD], [HEAD], [HEAD]
for at in range(0, len(cases), 30):
    some = list(zip(cases[at:at + 30], forged[at:at + 30]))
    for node in NODES:
        for case, is_forged in some:
            line = 'noise %s %s' % (node, case.hex() or '-')
            script.append(line + '\n')
            run.append(line + (' -> refused 14\n' if is_forged else ' -> refused 3\n'))
            udp.append(line + (' -> refused 14\n' if is_forged else ' -> ok\n'))
    script.append('flow 31\n')
    udp += [''.join('serve %s -> refused 3\n' % node for node in NODES)] * sum(not is_forged for case, is_forged in some)
for lines in (run, udp):
    lines.append('final r0\n')
path = os.path.join(folder, 'hostile')
os.mkdir(path)
with open(path + '.script', 'w') as file:
    file.writelines(script)
passed = 0
for words, wanted in ((['run', path + '.script'], run), (['udp', path + '.script', path], udp)):
    ran = subprocess.run([program] + words, stdout=subprocess.PIPE, stderr=subprocess.PIPE, universal_newlines=True)
    if ran.stdout == ''.join(wanted) and ran.returncode == 0 and not ran.stderr:
        passed += 1
    else:
        got = ran.stdout.splitlines(True)
        want = ''.join(wanted).splitlines(True)
        first = next((pair for pair in zip(got, want) if pair[0] != pair[1]), (len(got), len(want)))
        print('FAILED %s: status %d %s; first: %s' % (words[0], ran.returncode, ran.stderr, repr(first)[:300]))
print('%d messages, broken in %d ways, of which %d spell a message' % (len(messages), len(cases), sum(forged)))
print('%d passed, %d failed' % (passed, 2 - passed))
sys.exit(passed != 2)
