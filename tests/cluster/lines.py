#!/usr/bin/env python3
"""What clients may write that they shouldn't, and how they may go away: lines.py PROGRAM [long]. After each a node serves others as
before."""
import os
import random
import shutil
import socket
import subprocess
import sys
import tempfile
import threading
import time

from processes import Processes, ZEROS

LONGEST = 65536
# seconds after which a branch that nobody touched is rolled back, in this test's cluster
IDLE = 3
# these wait, and so run beside the others; the last only in a long run
SLOW = ('a_line_never_ended', 'a_byte_a_second', 'an_idle_client_stays', 'an_idle_branch_is_rolled_back', 'an_await_ends_after_a_minute')


class Raw:
    """A connection on which anything can be written."""

    def __init__(self, cluster, name):
        self.end = socket.create_connection(cluster.clients[name], timeout=20)
        self.file = self.end.makefile('rb')

    def ask(self, *lines):
        self.end.sendall(b''.join(line if isinstance(line, bytes) else line.encode() + b'\n' for line in lines))
        return [self.file.readline().decode().rstrip('\n') for _ in lines]

    def is_closed(self, most=20):
        """Whether the node closes it before long. Answers that come before are passed over."""
        self.end.settimeout(most)
        try:
            while self.end.recv(65536):
                pass
        except TimeoutError:
            return False
        except OSError:
            pass
        return True

    def close(self):
        self.file.close()
        self.end.close()


class Tests:
    def __init__(self, cluster):
        self.cluster, self.serial = cluster, 0

    def raw(self, name='r0'):
        return Raw(self.cluster, name)

    def xid(self):
        self.serial += 1
        return '1:%08x:61' % self.serial

    def serves(self):
        """A node does what it should for another client."""
        one, xid = self.raw(), self.xid()
        answers = one.ask('start r0 ' + xid, 'put r0 %s ff 01' % xid, 'get r0 %s ff' % xid, 'end r0 %s' % xid, 'rollback r0 ' + xid)
        one.close()
        return answers == ['0', '0', 'value 01', '0', '0']

    def a_line_too_long(self):
        one = self.raw()
        try:
            one.end.sendall(b'get r0 ' + b'a' * (LONGEST + 4096))
        except OSError:
            pass
        return one.is_closed()

    def the_longest_line_that_is_taken(self):
        one = self.raw()
        line = b'get r0 '
        return one.ask(line + b'a' * (LONGEST - 1 - len(line)) + b'\n', 'recover r0') == ['refused 7', 'xids']

    def a_line_never_ended(self):
        one, begun = self.raw(), time.monotonic()
        one.end.sendall(b'recover ')
        return one.is_closed() and 8 < time.monotonic() - begun < 15

    def a_byte_a_second(self):
        one, begun = self.raw(), time.monotonic()
        try:
            for byte in b'recover r0 and more of it':
                one.end.sendall(bytes([byte]))
                time.sleep(1)
        except OSError:
            pass
        return one.is_closed() and time.monotonic() - begun < 20

    def an_idle_client_stays(self):
        one = self.raw()
        before = one.ask('recover r0')
        time.sleep(12)
        return before == one.ask('recover r0') == ['xids']

    def no_commands(self):
        one = self.raw()
        lines = ['', ' ', '# r0', 'hello', 'start', 'start r0', 'start r0 1:74', 'start r0 1:74:6', 'start r0 1:74:61 62',
                 'start r9999 1:74:61', 'cluster acceptors 1 leaders 1 rms 1', 'table r0 6b=31', 'deliver 1', 'flow 3', 'tear r0 1',
                 'noise r0 00', 'view r0 1:74:61', 'put r0 1:74:61 6b', 'get r0 1:74:61 6B', 'start r0 01:74:61', 'start r0 1:74:61\r',
                 'start\tr0\t1:74:61', 'start r0 1:74:61\0']
        answers = one.ask(*lines)
        wrong = [pair for pair in zip(lines, answers) if pair[1] != 'refused 7']
        if wrong:
            print('lines: not refused 7: %s' % wrong)
        return not wrong

    def capitals(self):
        return self.raw().ask('START r0 1:74:61', 'Start r0 1:74:61', 'start R0 1:74:61') == ['refused 7'] * 3

    def bytes_of_chance(self):
        chance = random.Random(3)
        one = self.raw()
        lines = [chance.randbytes(chance.randrange(0, 200)).replace(b'\n', b' ') + b'\n' for _ in range(500)]
        return one.ask(*lines) == ['refused 7'] * 500

    def another_nodes(self):
        one, leader, acceptor = self.raw(), self.raw('l0'), self.raw('a0')
        return (one.ask('start r1 1:74:61', 'commit l0 1:74/0=61', 'status l0 1:74/0=61', 'timeout l0 1:74/0=61', 'view r1 1:74/0=61')
                + leader.ask('start r0 1:74:61', 'commit l1 1:74/0=61', 'start l0 1:74:61')[:2]
                + acceptor.ask('recover r0', 'commit l0 1:74/0=61')) == ['refused 15'] * 9

    def another_cluster_s_manager(self):
        return self.raw('l0').ask('commit l0 1:74/0=61,9=62') == ['refused 2']

    def ten_thousand_lines_at_once(self):
        one, begun = self.raw(), time.monotonic()
        writer = threading.Thread(target=one.end.sendall, args=(b'recover r0\nnonsense\n' * 5000,))
        writer.start()
        answers = [one.file.readline() for _ in range(10000)]
        writer.join()
        return answers == [b'xids\n', b'refused 7\n'] * 5000 and time.monotonic() - begun < 10

    def one_that_never_reads(self):
        """It has its own lines wait: others are served while it writes, and it ends up waiting itself."""
        one = self.raw()
        one.end.settimeout(1)
        sent = 0
        try:
            while sent < 200 << 20:
                sent += one.end.send(b'recover r0\n' * 1000)
        except TimeoutError:
            pass
        is_so = self.serves() and sent < 200 << 20
        one.close()
        return is_so

    def gone_in_the_middle_of_a_line(self):
        one = self.raw()
        one.end.sendall(b'start r0 1:')
        one.close()
        return self.serves()

    def gone_in_the_middle_of_a_branch(self):
        """What it had touched is free at once."""
        one, xid = self.raw(), self.xid()
        held = one.ask('start r0 ' + xid, 'put r0 %s ff 01' % xid)
        other, mine = self.raw(), self.xid()
        busy = other.ask('start r0 ' + mine, 'put r0 %s ff 02' % mine)
        one.close()
        until = time.monotonic() + 5
        answer = 'refused 9'
        while answer == 'refused 9' and time.monotonic() < until:
            time.sleep(0.02)
            answer = other.ask('put r0 %s ff 02' % mine)[0]
        other.ask('end r0 %s fail' % mine, 'rollback r0 ' + mine)
        return (held, busy, answer) == (['0', '0'], ['0', 'refused 9'], '0')

    def gone_after_the_end_of_a_branch(self):
        """An ended branch may be committed by others, so it stays."""
        one, xid = self.raw(), self.xid()
        one.ask('start r0 ' + xid, 'put r0 %s fe 01' % xid, 'end r0 ' + xid)
        one.close()
        time.sleep(0.3)
        gtrid = xid.split(':')[1]
        leader = self.raw('l0')
        leader.ask('commit l0 1:%s/0=61' % gtrid)
        return leader.ask('await l0 1:%s/0=61' % gtrid) == ['committed']

    def an_idle_branch_is_rolled_back(self):
        """One that nobody touched for longer than `idle`, active or ended, though its client is there; one that is touched stays."""
        one, active, ended, busy = self.raw(), self.xid(), self.xid(), self.xid()
        for key, xid in (('e0', active), ('e1', ended), ('e2', busy)):
            one.ask('start r0 ' + xid, 'put r0 %s %s 01' % (xid, key))
        one.ask('end r0 ' + ended)
        for _ in range(2 * IDLE):
            time.sleep(1)
            one.ask('get r0 %s e2' % busy)
        answers = one.ask('put r0 %s e0 02' % active, 'rollback r0 ' + ended, 'put r0 %s e2 02' % busy)
        one.ask('end r0 %s fail' % busy, 'rollback r0 ' + busy)
        return answers == ['-4', '-4', '0']

    def an_await_ends_after_a_minute(self):
        one, begun = self.raw('r0'), time.monotonic()
        one.end.settimeout(90)
        answers = one.ask('await r0 1:7779/0=61')
        return answers == ['working'] and 55 < time.monotonic() - begun < 75

    def gone_in_the_middle_of_an_await(self):
        for _ in range(20):
            one = self.raw('l0')
            one.end.sendall(b'commit l0 1:%08x/0=61,1=62\nawait l0 1:%08x/0=61,1=62\n' % (900 + self.serial, 900 + self.serial))
            self.serial += 1
            one.close()
        return self.serves() and self.raw('l0').ask('status l0 1:7777/0=61') == ['unknown']

    def an_await_holds_up_nobody_else(self):
        one, other = self.raw('r0'), self.raw('r0')
        one.end.sendall(b'await r0 1:7778/0=61\nrecover r0\n')
        answer = other.ask('recover r0')
        one.end.settimeout(0.5)
        try:
            early = one.end.recv(100)
        except TimeoutError:
            early = b''
        return answer == ['xids'] and early == b''

    def more_clients_than_there_is_room_for(self):
        ends = []
        try:
            for _ in range(1100):
                ends.append(Raw(self.cluster, 'a0'))
            closed = 0
            for one in ends:
                try:
                    one.end.settimeout(5)
                    one.end.sendall(b'what\n')
                    closed += one.file.readline() != b'refused 7\n'
                except OSError:
                    closed += 1
            said = 'client' in self.cluster.log('a0')
        finally:
            for one in ends:
                one.close()
        time.sleep(0.5)
        late = self.raw('a0').ask('what')
        if closed != 76 or not said:
            print('lines: of 1100 clients %d were closed; the log says so: %s' % (closed, said))
        return closed == 76 and said and late == ['refused 7']


def refuses_the_nodes_key(program, folder, name):
    """Whether a node doesn't start where the file with this name is to have the clients' key, and has the nodes' key."""
    cluster = Processes(program, folder, client_key=ZEROS)
    path = os.path.join(folder, 'a0.toml')
    with open(path) as file:
        said = file.read()
    with open(path, 'w') as file:
        file.write(said.replace('client_key = "client_key"', 'client_key = "%s"' % name))
    try:
        ended = subprocess.run(cluster.command('a0'), capture_output=True, text=True, timeout=30)
    except subprocess.TimeoutExpired:
        return False
    return ended.returncode == 2 and "client_key: it is the nodes' key" in ended.stderr


def refuse_the_nodes_key(program, folder):
    """A copy of the nodes' key, and the same file by another path."""
    for place, name in (('copied', 'client_key'), ('by_another_path', './key')):
        yield 'refuses the nodes\' key, ' + place, refuses_the_nodes_key(program, os.path.join(folder, place), name)


def main(program, length='short'):
    folder = tempfile.mkdtemp(prefix='pcommit-lines-')
    told = dict(refuse_the_nodes_key(program, folder))
    with Processes(program, folder, tables=({}, {}), client_key=None, clock={'ask': 200, 'idle': 1000 * IDLE}) as cluster:
        cluster.start()
        cluster.watch()
        tests = Tests(cluster)

        def run(name):
            try:
                told[name] = getattr(tests, name)()
            except Exception as error:
                told[name] = repr(error)
        names = [name for name, value in vars(Tests).items() if callable(value) and name not in ('__init__', 'raw', 'xid', 'serves')]
        slow = [threading.Thread(target=run, args=(name,)) for name in (SLOW[:-1] if length == 'short' else SLOW)]
        for thread in slow:
            thread.start()
        for name in names:
            if name not in SLOW:
                run(name)
                if told[name] is True and not tests.serves():
                    told[name] = 'the node does not serve others after it'
        for thread in slow:
            thread.join()
        downs, wrong = cluster.ended()
        told['no node has ended'] = not downs and not wrong
        for name, is_so in told.items():
            if is_so is not True:
                print('lines: FAILED: %s: %s' % (name, is_so))
    failed = sum(is_so is not True for is_so in told.values())
    shutil.rmtree(folder)
    print('lines: %d passed, %d failed' % (len(told) - failed, failed))
    sys.exit(failed != 0)


if __name__ == '__main__':
    main(*sys.argv[1:])
