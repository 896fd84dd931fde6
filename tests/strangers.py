#!/usr/bin/env python3
"""strangers.py PROGRAM: datagrams that come to nodes from a socket that is no node's, while `pcommit udp` runs. Bytes that happen to spell
a message are taken as if a node had sent them, and answered ok; all others are refused (3), and change nothing. The program is held
(SIGSTOP) while they are sent, so that all of them wait when it goes on. The last line is 'N passed, M failed'."""
import os
import re
import signal
import socket
import subprocess
import sys
import tempfile

program = os.path.realpath(sys.argv[1])
TX = '00000001' '0174' '01' '0000' '0161'
INSTANCE = '0000'
# to each node: the bytes, and the lines of its serve
SENT = {
    'a0': [
        ('ff' * 1401, ['refused 3']),
        ('0202' + TX + INSTANCE + '00000001', ['ok']),  # phase 1a of ballot 1: promised
        ('0204' + TX + INSTANCE + '00000001' + '02', ['ok']),  # phase 2a of it, aborted: accepted
        ('0204' + TX + INSTANCE + '00000001', ['refused 3']),  # without its vote
    ],
    'l0': [
        ('02', ['refused 3']),
        ('0205' + TX + INSTANCE + '00000000' + '01' + '00', ['ok']),  # phase 2b of a0: it accepted the vote prepared
        ('0209' + TX, ['refused 3']),
    ],
    'r0': [
        ('00', ['refused 3']),
        ('0201' + TX, ['ok', 'now r0 1:74/0=61 prepared']),  # prepare
        ('0201' + TX + '00', ['refused 3']),
        ('0208' + TX + INSTANCE, ['ok']),  # an ask, which no rule takes here
        ('', ['refused 3']),
        ('0206' + TX, ['ok', 'now r0 1:74/0=61 committed']),  # commit
        ('0106' + '00000001' '0174' '01' '00' '0161', ['refused 3']),  # the same in version 1
    ],
}
# and after that what nodes have sent: r0's vote, which a0 has promised not to accept; what a0 reported and accepted; l0's outcome
THEN = {'a0': [['ok']], 'l0': [['ok'], ['ok']], 'r0': [['ok']]}
BEGINS = ['cluster acceptors 1 leaders 1 rms 1', 'start r0 1:74:61 -> 0', 'put r0 1:74:61 6b 31 -> 0', 'end r0 1:74:61 -> 0']
ENDS = ['status l0 1:74/0=61 -> committed', 'view r0 1:74/0=61 -> committed', 'final r0 6b=31']
RECORDS = {
    'a0': ['0201' + TX + INSTANCE + '00000001', '0202' + TX + INSTANCE + '00000001' + '02'],
    'l0': [],
    'r0': ['0204' + TX + '01' + '016b01000131', '0206' + TX],
}
passed = failed = 0


def check(name, got, wanted):
    global passed, failed
    if got == wanted:
        passed += 1
    else:
        failed += 1
        print('FAILED %s: %s, wanted %s' % (name, got, wanted))


def ports_of(child):
    """The numbers of a program's sockets, in the order in which they were made."""
    folder = '/proc/%d/fd' % child.pid
    try:
        links = [os.readlink(os.path.join(folder, name)) for name in sorted(os.listdir(folder), key=int)]
    except OSError:
        return []
    inodes = [link[8:-1] for link in links if link.startswith('socket:[')]
    with open('/proc/net/udp') as file:
        rows = [line.split() for line in file.readlines()[1:]]
    numbers = {row[9]: int(row[1].split(':')[1], 16) for row in rows}
    return [numbers[inode] for inode in inodes if inode in numbers]


def run(rounds, folder):
    """What the program prints where strangers send while it makes so many rounds; nothing where it ended before they had sent."""
    script = os.path.join(folder, 'script')
    with open(script, 'w') as file:
        lines = [line.split(' -> ')[0] for line in BEGINS + ['flow %d' % rounds] + ENDS[:2]]
        file.write('\n'.join(lines) + '\n')
    child = subprocess.Popen([program, 'udp', script, folder], stdout=subprocess.PIPE, stderr=subprocess.PIPE, universal_newlines=True)
    ports = []
    # its own three, and that for noise
    while len(ports) < 4 and child.poll() is None:
        ports = ports_of(child)
    if len(ports) == 4:
        child.send_signal(signal.SIGSTOP)
        stranger = socket.socket(socket.AF_INET, socket.SOCK_DGRAM)
        for port, datagrams in zip(ports, (SENT['a0'], SENT['l0'], SENT['r0'])):
            for data, _ in datagrams:
                stranger.sendto(bytes.fromhex(data), ('127.0.0.1', port))
        child.send_signal(signal.SIGCONT)
    out, err = child.communicate()
    check('status', (child.returncode, err), (0, ''))
    return out.splitlines()


def served(lines, node):
    """What a node answered to each datagram, and the views that changed."""
    answers = []
    for line in lines:
        if line.startswith('serve '):
            answers.append((line.split()[1], [line.split(' -> ')[1]]))
        elif line.startswith('now ') and answers:
            answers[-1][1].append(line)
    return [said for who, said in answers if who == node]


# a machine that is busy may let the program end before anything was sent: then with more rounds
wanted = {node: [lines for _, lines in SENT[node]] + THEN[node] for node in SENT}
for attempt in range(6):
    with tempfile.TemporaryDirectory() as folder:
        lines = run(100000 << attempt, folder)
        records = {node: open(os.path.join(folder, node + '.rec'), 'rb').read().hex() for node in SENT}
    if sum(line.startswith('serve ') for line in lines) >= sum(map(len, wanted.values())):
        break
for node in wanted:
    check('what %s answers' % node, served(lines, node), wanted[node])
    frames = ''.join('%08x%s' % (len(body) // 2, body) for body in RECORDS[node])
    check('what %s has stored' % node, records[node], frames)
check('other lines', [line for line in lines if not re.match('serve |now ', line)], BEGINS + ENDS)
print('%d passed, %d failed' % (passed, failed))
sys.exit(failed > 0)
