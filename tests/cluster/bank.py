#!/usr/bin/env python3
"""Clients move money between accounts at two managers, by get and put, and read the sum over both in transactions; then the records are
read and it is checked that nothing was lost, doubled or split: bank.py PROGRAM [SECONDS [SEED]].

A value is a balance and the name of the transaction that wrote it, so each read says whose write it saw. What is checked:
  - of each account: its first balance and the committed moves are one chain, each move having read what the one before it wrote, and the
    last table has the last of them; nothing that isn't committed was read by what is
  - each committed sum, and the sum of the last tables, is the first sum
  - a transaction that was answered committed is committed in each of its managers' records, one that was answered aborted in none, and
    one whose answer never came is the same in all
  - every vote has its outcome in the end, and every key is free"""
import collections
import multiprocessing
import os
import pickle
import random
import shutil
import sys
import tempfile
import threading
import time

from processes import Processes
sys.path.append(os.path.join(os.path.dirname(os.path.abspath(__file__)), '..'))
from pcommit_client import Aborted, Cluster, Conflict, Forgotten, Gone, Refused, Unknown
from soak_check import frames, manager

# at each manager: a sum reads all of them in one branch, which touches 64 keys at most
ACCOUNTS = 60
FIRST = 1000
NOBODY = bytes(16)
Done = collections.namedtuple('Done', 'kind tx outcome reads writes when took')


def key_of(account):
    return b'%02d' % account


def value_of(balance, tag=NOBODY):
    return balance.to_bytes(8, 'big', signed=True) + tag


def balance_of(value):
    return int.from_bytes(value[:8], 'big', signed=True)


def first_tables(managers=2):
    return [{key_of(a).hex(): value_of(FIRST).hex() for a in range(ACCOUNTS)} for _ in range(managers)]


class Busy:
    """A client in a thread, again and again with one transaction."""

    def __init__(self, file, number, seed, stop, counts):
        self.cluster, self.stop, self.counts = Cluster(file), stop, counts
        # a fifteenth of the clients read sums
        self.is_reader = number % 15 == 14
        self.chance = random.Random(seed * 1000 + number)
        self.done, self.conflicts, self.refused = [], 0, []

    def live(self):
        pause = 0.001
        while not self.stop.is_set():
            self.begun = time.time()
            try:
                (self.sum if self.is_reader else self.move)()
                pause = 0.001
                # a sum holds up all who move, so there is a while between two
                self.stop.wait(0.5 if self.is_reader else 0)
                continue
            except Conflict:
                self.conflicts += 1
            except (Unknown, Forgotten):
                self.note('unknown')
            except Aborted:
                self.note('aborted')
            except Refused as error:
                self.refused.append(str(error))
            time.sleep(pause * self.chance.uniform(0.5, 1.5))
            pause = min(2 * pause, 0.1)
        self.cluster.close()

    def note(self, outcome):
        now = time.time()
        if outcome == 'committed':
            with self.counts[self.kind].get_lock():
                self.counts[self.kind].value += 1
        self.done.append(Done(self.kind, self.tx.name, outcome, self.reads, self.writes, now, now - self.begun))

    def begin(self, kind):
        self.kind, self.reads, self.writes = kind, [], []
        self.tx = self.cluster.begin()
        return self.tx

    def get(self, tx, account):
        value = tx.get(account[0], key_of(account[1]))
        self.reads.append(account + (value,))
        return value

    def move(self):
        with self.begin('move') as tx:
            source, target = self.chance.sample([(rm, a) for rm in (0, 1) for a in range(ACCOUNTS)], 2)
            amount = self.chance.randrange(1, 50)
            for account, change in ((source, -amount), (target, amount)):
                value = value_of(balance_of(self.get(tx, account)) + change, bytes.fromhex(tx.gtrid))
                tx.put(account[0], key_of(account[1]), value)
                self.writes.append(account + (value,))
        self.note('committed')

    def sum(self):
        with self.begin('sum') as tx:
            for rm in (0, 1):
                self.read_all(tx, rm)
        self.note('committed')

    def read_all(self, tx, rm):
        """Reads each account of a manager. It waits where another holds one: those who write never wait, so nobody waits for ever."""
        self.get(tx, (rm, 0))
        left = list(range(1, ACCOUNTS))
        for _ in range(200):
            lines = ['get r%d %s %s' % (rm, tx.xid(rm), key_of(account).hex()) for account in left]
            try:
                answers = self.cluster.ask('r%d' % rm, *lines)
            except Gone as error:
                tx.rollback()
                raise Aborted(str(error)) from error
            for account, answer in zip(left, answers):
                if answer.startswith('value '):
                    self.reads.append((rm, account, bytes.fromhex(answer[6:])))
            left = [account for account, answer in zip(left, answers) if not answer.startswith('value ')]
            if not left:
                return
            time.sleep(0.002)
        # it gives up: what is left is read one by one, and the first that another holds ends the transaction
        for account in left:
            self.get(tx, (rm, account))


def work(file, numbers, seed, stop, path, counts):
    """Clients in a process, each in a thread; at the end what they did is put into a file."""
    clients = [Busy(file, number, seed, stop, counts) for number in numbers]
    threads = [threading.Thread(target=client.live, daemon=True) for client in clients]
    for thread in threads:
        thread.start()
    for thread in threads:
        thread.join()
    with open(path + '.new', 'wb') as out:
        pickle.dump([(c.done, c.conflicts, c.refused) for c in clients], out)
    os.rename(path + '.new', path)


class Bank:
    """Clients of a cluster, in four processes."""

    def __init__(self, cluster, seed, clients=32):
        self.cluster, self.stopping = cluster, multiprocessing.Event()
        self.paths = [os.path.join(cluster.folder, 'done%d' % n) for n in range(4)]
        self.counts = {kind: multiprocessing.Value('l', 0) for kind in ('move', 'sum')}
        args = [(cluster.file, range(n, clients, 4), seed, self.stopping, path, self.counts) for n, path in enumerate(self.paths)]
        self.processes = [multiprocessing.Process(target=work, args=one, daemon=True) for one in args]
        self.done, self.conflicts, self.faults = [], 0, []
        self.votes = [Votes(cluster, rm) for rm in (0, 1)]

    def start(self):
        for process in self.processes:
            process.start()
        self.begun = time.time()

    def until(self, moves, sums, most=60):
        """Waits until so much was committed, where a busy machine hasn't come so far yet."""
        until = time.monotonic() + most
        while (self.counts['move'].value < moves or self.counts['sum'].value < sums) and time.monotonic() < until:
            time.sleep(0.2)
            self.open_votes()

    def stop(self):
        """Lets the clients finish what they are at."""
        self.seconds = time.time() - self.begun
        self.stopping.set()
        for process, path in zip(self.processes, self.paths):
            process.join(90)
            if not os.path.exists(path):
                self.faults.append('clients did not come to an end')
                process.kill()
                continue
            with open(path, 'rb') as words:
                for done, conflicts, refused in pickle.load(words):
                    self.done += done
                    self.conflicts += conflicts
                    self.faults += refused

    def count(self, outcome, kind=None):
        return sum(one.outcome == outcome and kind in (None, one.kind) for one in self.done)

    def rate(self, begin, end):
        """Committed transactions a second between two moments."""
        return sum(one.outcome == 'committed' and begin <= one.when < end for one in self.done) / (end - begin)

    def said(self):
        unknown = self.count('unknown')
        return '%d moves and %d sums committed, %d aborted, %d without an answer, %d conflicts, in %.0f s' % (
            self.count('committed', 'move'), self.count('committed', 'sum'), self.count('aborted'), unknown, self.conflicts, self.seconds)

    def fault(self, words):
        self.faults.append(words)

    def settle(self, most=120.0):
        """Waits until each vote has its outcome, and asks for outcomes whose answers never came. How long it took."""
        begun = time.monotonic()
        while self.open_votes():
            if time.monotonic() - begun > most:
                left = self.open_votes()
                self.fault('%d votes have no outcome after %.0f s, one is %s' % (len(left), most, sorted(left)[:1]))
                break
            time.sleep(0.1)
        took = time.monotonic() - begun
        client = Cluster(self.cluster.file)
        self.settled = {}
        for one in self.done:
            if one.outcome == 'unknown':
                try:
                    self.settled[one.tx] = client.settle(one.tx)
                except (Gone, Unknown, Forgotten) as error:
                    self.fault('%s: %s' % (one.tx, error))
        self.last = {}
        try:
            client.run(lambda tx: self.last.update({(rm, a): tx.get(rm, key_of(a)) for rm in (0, 1) for a in range(ACCOUNTS)}))
        except (Aborted, Unknown, Refused) as error:
            self.fault('in the end not every key is free: %r' % error)
        client.close()
        return took

    def open_votes(self):
        """The votes without an outcome, by the managers' records."""
        return set().union(*(votes.read() for votes in self.votes))

    def check(self):
        """What is wrong, a line each. The cluster is stopped before."""
        rows, ends = [], []
        for rm in (0, 1):
            table = {bytes.fromhex(k): bytes.fromhex(v) for k, v in self.cluster.tables[rm].items()}
            try:
                ends.append({said(tx): outcome for tx, outcome in manager(self.cluster.record('r%d' % rm), table)[1].items()})
            except ValueError as error:
                self.fault('the record of r%d: %s' % (rm, error))
                ends.append({})
            rows.append(table)
        self.check_outcomes(ends)
        total = 2 * ACCOUNTS * FIRST
        if sum(balance_of(value) for table in rows for value in table.values()) != total:
            self.fault('the sum of the last tables is not the first sum')
        for rm, a in self.last:
            if self.last[rm, a] != rows[rm].get(key_of(a)):
                self.fault('account %d at r%d was read as it is not in the record' % (a, rm))
        committed = [one for one in self.done if self.is_committed(one, ends)]
        for one in committed:
            if one.kind == 'sum' and (len(one.reads), sum(balance_of(value) for _rm, _a, value in one.reads)) != (2 * ACCOUNTS, total):
                self.fault('%s has read a sum that never was' % one.tx)
        moves, reads = collections.defaultdict(list), collections.defaultdict(list)
        for one in committed:
            was = {(rm, account): value for rm, account, value in one.reads}
            for account, value in was.items():
                reads[account].append((one.tx, value))
            for rm, account, value in one.writes:
                moves[rm, account].append((was[rm, account], value))
        for rm in (0, 1):
            for account in range(ACCOUNTS):
                self.check_chain((rm, account), moves[rm, account], reads[rm, account], rows[rm].get(key_of(account)))
        return self.faults

    def is_committed(self, one, ends):
        return one.outcome == 'committed' or one.outcome == 'unknown' and any(end.get(one.tx) == 'committed' for end in ends)

    def check_outcomes(self, ends):
        for tx in set(ends[0]) | set(ends[1]):
            found = {end[tx] for end in ends if tx in end}
            if len(found) > 1:
                self.fault('%s is committed at one manager and aborted at another' % tx)
        for one in self.done:
            mine = [ends[rm].get(one.tx) for rm in (0, 1) if one.tx.split('/')[1].find('%d=' % rm) in (0, 5)]
            told = self.settled.get(one.tx, one.outcome)
            if told == 'committed' and mine != ['committed'] * len(mine):
                self.fault('%s was answered committed, and is %s' % (one.tx, mine))
            if told == 'aborted' and 'committed' in mine:
                self.fault('%s was answered aborted, and is %s' % (one.tx, mine))

    def check_chain(self, account, moves, reads, last):
        """The committed moves of an account, (read, written), one after the other, and who read it."""
        after = dict(moves)
        if len(after) < len(moves):
            self.fault('two committed moves have read the same value of account %s' % (account,))
        value, steps = value_of(FIRST), 0
        while value in after:
            value, steps = after[value], steps + 1
        if steps != len(after) or value != last:
            self.fault('account %s: %d of %d committed moves are a chain, and its end is%s the last value' % (
                account, steps, len(after), '' if value == last else ' not'))
        values = {value_of(FIRST)}.union(after.values())
        for tx, value in reads:
            if value not in values:
                self.fault('%s has read what nobody committed at account %s' % (tx, account))


class Votes:
    """The votes of a manager that have no outcome, by its record, which is read on from where it was read to."""

    def __init__(self, cluster, rm):
        self.rm, self.path = rm, os.path.join(cluster.records, 'r%d.rec' % rm)
        self.node, self.at, self.open, self.replaced = None, 0, set(), -1

    def read(self):
        with open(self.path, 'rb') as record:
            node = os.fstat(record.fileno()).st_ino
            if node != self.node or os.fstat(record.fileno()).st_size < self.at:
                self.node, self.at, self.open = node, 0, set()
                self.replaced += 1
            record.seek(self.at)
            data = record.read()
        for body in frames(data):
            self.at += 4 + len(body)
            if body[1] in (9, 10, 13):
                continue
            name = body[2:2 + spelled(body[2:])]
            if body[1] == 4:
                self.open.add((self.rm, name))
            else:
                self.open.discard((self.rm, name))
        return self.open


def spelled(body):
    """How many bytes spell the transaction with which these begin."""
    at = 5 + body[4]
    count, at = body[at], at + 1
    for _ in range(count):
        at += 3 + body[at + 2]
    return at


def said(tx):
    """A transaction's name, of how soak_check has it."""
    number, gtrid, branches = tx
    return '%d:%s/%s' % (number, gtrid.hex(), ','.join('%d=%s' % (rm, name.hex()) for rm, name in branches))


def over(name, program, begin, drive, **words):
    """Runs a bank: `begin(cluster, folder)` before its nodes start, `drive(cluster, bank)` while it works. Its faults are printed. A branch that
    was ended, and whose abort is lost, keeps its keys for as long as `idle` says, so that is less than the last read waits for them."""
    folder = tempfile.mkdtemp(prefix='pcommit-%s-' % name)
    seed, makes = words.pop('seed', 1), words.pop('makes', Processes)
    with makes(program, folder, tables=first_tables(), clock={'idle': 10000}, **words) as cluster:
        others = begin(cluster, folder) if begin else None
        try:
            cluster.start()
            cluster.watch()
            bank = Bank(cluster, seed)
            bank.open_votes()
            bank.start()
            told = drive(cluster, bank, others)
            bank.stop()
            took = bank.settle()
            downs, wrong = cluster.ended()
        finally:
            cluster.stop()
            if others:
                others.stop()
        bank.check()
        for one in wrong:
            bank.fault('%s ended with status %d: %s' % (*one, cluster.log(one[0])[-200:]))
    print('%s: %s cluster: %s; %s' % (name, 'a bundled' if cluster.bundled else 'a plain', bank.said(), told))
    print('%s: all votes had their outcome %.1f s after the last client; nodes went down of themselves %d times; managers made their '
          'records shorter %d times' % (name, took, downs, sum(votes.replaced for votes in bank.votes)))
    for fault in bank.faults[:10]:
        print('%s: WRONG: %s' % (name, fault))
    if len(bank.faults) > 10:
        print('%s: and %d more' % (name, len(bank.faults) - 10))
    if bank.faults:
        print('%s: seed %d; the records and logs are in %s' % (name, seed, folder))
    else:
        shutil.rmtree(folder)
    bank.downs = downs
    return bank


def finish(name, checks):
    """Says how many of the checks are so, and ends."""
    for what, is_so in checks:
        if not is_so:
            print('%s: FAILED: %s' % (name, what))
    failed = sum(not is_so for _what, is_so in checks)
    print('%s: %d passed, %d failed' % (name, len(checks) - failed, failed))
    sys.exit(failed != 0)


def main(program, seconds=20, seed=1):
    def drive(_cluster, bank, _others):
        for _ in range(int(seconds)):
            time.sleep(1)
            bank.open_votes()
        bank.until(*least)
        return 'no faults made'
    least = (20 * float(seconds), 5)
    bank = over('bank', program, None, drive, seed=int(seed))
    finish('bank', [('nothing is wrong', not bank.faults), ('enough was moved', bank.count('committed', 'move') >= least[0]),
                    ('sums were read', bank.count('committed', 'sum') >= least[1])])


if __name__ == '__main__':
    main(*sys.argv[1:])
