#!/usr/bin/env python3
"""A cluster with timed names over so many transactions that it would be full if it kept them, while its processes are killed: years.py
PROGRAM [TRANSACTIONS [SEED]]. Clients of bench/clients.c do most of them, as fast as they can; others move money between accounts at both
managers, and read the sum. What is checked:
  - each sum that was read, and the sum of the last tables, is the first sum
  - what each process has in memory, and its record, is level after the first tenth: the mean of each tenth is within a fifth of
    that of all, and a megabyte. They are looked at four times a second, and each process is killed as often as every other
  - of acceptors, leaders and managers, the straight line through the means of these tenths rises by at most a fifth of their mean, or a
    megabyte: a process that was killed has less for a while, and what is kept for a time follows the rate, so this tells a rise better
  - at the end each process listens within 0.2 s of its start
Needs Debian's libpq-dev, which the clients are built with; without it nothing is run, and that is said."""
import collections
import os
import random
import shutil
import subprocess
import sys
import tempfile
import threading
import time

from bank import finish
from processes import HERE, Processes

from pcommit_client import Aborted, Cluster, Connection, Forgotten, Gone, Refused, Unknown

sys.path.append(os.path.join(HERE, '..', '..', 'bench'))
from cluster import build_clients

# transactions that are alive: so many of the latest
ALIVE = 20000
CLIENTS, LANES = 32, 4
ACCOUNTS, FIRST = 8, 1000
# how many milliseconds a branch is left that a client has ended and left: so long it holds a floor back
IDLE = 1000
# seconds from a kill to the next at most, and from a process's start until it listens
PAUSE, SOON = 6.0, 0.2
# seconds from one look at the levels to the next
LOOK = 0.25


class Hasty:
    """Clients that go on until a node is gone: `count` of all they did, and how many of these were committed."""

    def __init__(self, program, cluster):
        self.program, self.cluster = program, cluster
        self.count, self.committed, self.serial = 0, 0, 0

    def sockets(self):
        client = Cluster(self.cluster.file)
        ends = [Connection(name, client.addresses[name], client.proof(name), 5) for name in ('r0', 'r1', 'l0')]
        for end in ends:
            end.socket.setblocking(True)
        return [end.socket for end in ends]

    def start(self, numbers, seconds):
        held = {number: self.sockets() for number in numbers}
        words = ['%d=%s' % (number, ','.join(str(one.fileno()) for one in ends)) for number, ends in held.items()]
        sockets = [one for ends in held.values() for one in ends]
        run = subprocess.Popen([self.program, 'timed', str(seconds), str(1 << 40), str(self.serial << 32), '-', *words], text=True,
                               stdin=subprocess.PIPE, stdout=subprocess.PIPE, pass_fds=[one.fileno() for one in sockets])
        for one in sockets:
            one.close()
        return run

    def run(self, seconds):
        """For a while, or until the nodes that they work at are gone."""
        self.serial += 1
        runs = []
        try:
            for lane in range(LANES):
                runs.append(self.start(range(lane, CLIENTS, LANES), seconds))
        except Gone:
            for run in runs:
                run.kill()
                run.communicate()
            time.sleep(0.05)
            return
        for run in runs:
            run.stdout.readline()
            run.stdin.write('g')
            run.stdin.flush()
        for run in runs:
            committed, other = map(int, run.communicate()[0].split() or (0, 0))
            self.count += committed + other
            self.committed += committed


class Mover(threading.Thread):
    """A client that moves money between two accounts, and now and then reads all of them."""

    def __init__(self, file, number):
        super().__init__(daemon=True)
        self.cluster, self.chance, self.stopping = Cluster(file), random.Random(number), threading.Event()
        self.moves, self.sums, self.wrong = 0, 0, []

    def move(self, tx):
        source, target = self.chance.sample([(rm, n) for rm in (0, 1) for n in range(ACCOUNTS)], 2)
        amount = self.chance.randrange(1, 50)
        for (rm, number), change in ((source, -amount), (target, amount)):
            balance = int(tx.get(rm, b'account%d' % number))
            tx.put(rm, b'account%d' % number, b'%d' % (balance + change))

    def sum(self, tx):
        return sum(int(tx.get(rm, b'account%d' % number)) for rm in (0, 1) for number in range(ACCOUNTS))

    def run(self):
        while not self.stopping.is_set():
            try:
                with self.cluster.begin() as tx:
                    work = self.sum if self.moves % 20 == 19 else self.move
                    found = work(tx)
                if work == self.sum:
                    self.sums += 1
                    if found != 2 * ACCOUNTS * FIRST:
                        self.wrong.append('a sum of %d was read' % found)
                self.moves += 1
            except (Aborted, Unknown, Forgotten, Gone):
                time.sleep(0.01)
            except Refused as error:
                self.wrong.append(str(error))
        self.cluster.close()


def tables():
    return [{(b'account%d' % n).hex(): (b'%d' % FIRST).hex() for n in range(ACCOUNTS)} for _ in range(2)]


def total(cluster):
    """The sum of the accounts, once all is decided."""
    client = Cluster(cluster.file)
    found = client.run(lambda tx: sum(int(tx.get(rm, b'account%d' % n)) for rm in (0, 1) for n in range(ACCOUNTS)))
    client.close()
    return found


class Levels(threading.Thread):
    """What each process has in memory, and its record, by tenths of the whole: means, and at most."""

    def __init__(self, cluster):
        super().__init__(daemon=True)
        self.cluster, self.found, self.seconds = cluster, [collections.defaultdict(list) for _ in range(10)], [0] * 10
        self.tenth, self.stopping = 0, threading.Event()

    def run(self):
        while not self.stopping.wait(LOOK):
            self.look(self.tenth)

    def look(self, tenth):
        for name in self.cluster.names:
            try:
                record = os.path.getsize(os.path.join(self.cluster.records, name + '.rec'))
                memory = 1024 * self.cluster.memory(name)
            except (OSError, KeyError, StopIteration):
                # it is killed just now
                continue
            self.found[tenth][name, 'memory'].append(memory)
            self.found[tenth][name, 'record'].append(record)

    def means(self, *what):
        """Of the tenths after the first, of which any was seen."""
        return [mean(tenth[what]) for tenth in self.found[1:] if tenth[what]] or [0]

    def most(self, *what):
        return max(max(tenth[what], default=0) for tenth in self.found)

    def apart(self):
        """What isn't level after the first tenth, within a fifth, above the little that every process has."""
        wrong = []
        for name in self.cluster.names:
            for what in ('memory', 'record'):
                means = self.means(name, what)
                if max(abs(one - mean(means)) for one in means) > max(mean(means) / 5, 1 << 20):
                    wrong.append('%s of %s: %s MB' % (what, name, ' '.join('%.1f' % (one / 1e6) for one in means)))
        return wrong

    def rises(self):
        """What rises after the first tenth: of each kind of process, by how much, and the means of the tenths."""
        wrong = []
        for kind in 'alr':
            names = [name for name in self.cluster.names if name[0] == kind]
            for what in ('memory', 'record'):
                found = [[mean(tenth[name, what]) for name in names if tenth[name, what]] for tenth in self.found[1:]]
                means = [mean(some) for some in found if some]
                if rise(means) > max(mean(means) / 5, 1 << 20):
                    wrong.append('%s of %s rises by %.1f MB: %s' % (
                        what, ' '.join(names), rise(means) / 1e6, ' '.join('%.1f' % (one / 1e6) for one in means)))
        return wrong


def mean(numbers):
    return sum(numbers) / len(numbers) if numbers else 0


def rise(means):
    """By how much the straight line through these, by least squares, rises from the first to the last."""
    middle = (len(means) - 1) / 2
    square = sum((place - middle) ** 2 for place in range(len(means)))
    return 2 * middle * sum((place - middle) * one for place, one in enumerate(means)) / square if square else 0


def kill_along(cluster, chance, killed, stopping):
    """Kills a process every few seconds, and starts it again: in each round all of them, one after another."""
    left = []
    while not stopping.wait(chance.uniform(0.3, 1) * PAUSE):
        left = left or chance.sample(cluster.names, len(cluster.names))
        name = left.pop()
        cluster.kill(name)
        time.sleep(chance.uniform(0, 0.3))
        cluster.start(name)
        killed[name[0]] += 1


def live(cluster, hasty, movers, count, chance):
    """All of it. What the processes had, and how many were killed."""
    levels, killed, stopping = Levels(cluster), collections.Counter(), threading.Event()
    killer = threading.Thread(target=kill_along, args=(cluster, chance, killed, stopping), daemon=True)
    for one in (*movers, killer, levels):
        one.start()
    while hasty.count < count and killer.is_alive() and levels.is_alive():
        begun = time.monotonic()
        hasty.run(2)
        levels.tenth = min(9, 10 * hasty.count // count)
        levels.seconds[levels.tenth] += time.monotonic() - begun
    stopping.set()
    for one in (*movers, levels):
        one.stopping.set()
    for one in (*movers, killer, levels):
        one.join(90)
    return levels, killed


def starts(cluster):
    """How many seconds each process takes from its start until it listens, over what it has then."""
    found = {}
    for name in cluster.names:
        cluster.kill(name)
        begun = time.monotonic()
        cluster.start(name)
        found[name] = time.monotonic() - begun
    return found


def main(program, count=100000, seed=1):
    count, chance, folder, begun = int(count), random.Random(int(seed)), tempfile.mkdtemp(prefix='pcommit-years-'), time.time()
    if not shutil.which('pg_config'):
        print('years: left out: apt-get install libpq-dev')
        print('years: 0 passed, 0 failed')
        return
    clients = build_clients(folder)
    # a rate is measured first, so that about as many are alive as wanted
    with Processes(program, os.path.join(folder, 'rate'), tables=tables(), names={'keep': 600000}) as cluster:
        cluster.start()
        hasty = Hasty(clients, cluster)
        hasty.run(3)
        rate = hasty.count / 3
    keep = max(1000, int(1000 * ALIVE / rate / 1.5))
    with Processes(program, os.path.join(folder, 'nodes'), tables=tables(), names={'keep': keep}, clock={'idle': IDLE}) as cluster:
        cluster.start()
        hasty, movers = Hasty(clients, cluster), [Mover(cluster.file, number) for number in range(4)]
        levels, killed = live(cluster, hasty, movers, count, chance)
        took, last = starts(cluster), total(cluster)
        sizes = {name: (1024 * cluster.memory(name), len(cluster.record(name))) for name in cluster.names}
    wrong = [fault for one in movers for fault in one.wrong]
    moves, sums = sum(one.moves for one in movers), sum(one.sums for one in movers)
    print('years: %d transactions, %d committed, %.0f a second at first, kept for %d ms; %d transfers and %d sums beside; %d kills; '
          'in %.0f s' % (hasty.count, hasty.committed, rate, keep, moves, sums, sum(killed.values()), time.time() - begun))
    print('years: by tenths %s a second' % ' '.join('%.0f' % (count / 10 / max(0.1, seconds)) for seconds in levels.seconds))
    for name in cluster.names:
        said = ['%s MB, %.1f at most' % (' '.join('%.1f' % (mean / 1e6) for mean in levels.means(name, what)),
                                         levels.most(name, what) / 1e6) for what in ('memory', 'record')]
        print('years: %s: memory by tenths after the first %s; record %s; at the end %.1f and %.1f; it listens after %.3f s' % (
            name, *said, *(size / 1e6 for size in sizes[name]), took[name]))
    for one in (*wrong[:5], *levels.apart(), *levels.rises()):
        print('years: WRONG: %s' % (one,))
    shutil.rmtree(folder)
    finish('years', [('nothing is wrong', not wrong), ('the sum is right', last == 2 * ACCOUNTS * FIRST),
                     ('it came to its end', hasty.count >= count), ('most were committed', 10 * hasty.committed > 9 * hasty.count),
                     ('money was moved', moves > 100 and sums > 3), ('processes were killed', sum(killed.values()) > count // 200000),
                     ('levels stay', not levels.apart()), ("levels don't rise", not levels.rises()),
                     ('starts are quick', max(took.values()) < SOON)])


if __name__ == '__main__':
    main(*sys.argv[1:])
