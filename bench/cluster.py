#!/usr/bin/env python3
"""Figures of a cluster of seven processes: cluster.py [--program FILE] [--folder DIR] [--seconds N] [--beside FILE] [--turns N] [--memory]
[--take-over N] [--start N] [--postgresql] [--python] [--syncs MS].

Each transaction writes a row at each of two managers: its client sends start, put and end to both at once, then commit and await to a
leader and await to both managers. For 1, 8 and 32 clients: transactions a second, the time to the leader's outcome and to both views,
and of 32 clients, over all nodes by `info`: appends, groups and datagrams for a transaction, and what each kind of node takes of a
processor. The clients are those of bench/clients.c, so that they take little of it themselves, which is told too; --python has the ones
in Python. --syncs has each sync of nodes, servers and logs take so many milliseconds at least. --beside has another program do the same,
and --postgresql PostgreSQL, turn and turn about: medians over the turns, each as long as --seconds says over their number.
--memory tells what each node has in memory, and its record's size, --start N how long a start over N transactions takes,
--take-over how long it is from a kill of the first leader until every prepared branch has its outcome."""
import argparse
import collections
import multiprocessing
import os
import select
import shutil
import statistics
import subprocess
import sys
import tempfile
import time

sys.path.insert(0, os.path.join(os.path.dirname(os.path.abspath(__file__)), '..', 'tests', 'cluster'))
from processes import Processes, preload
from bank import Votes
from pcommit_client import Cluster, Connection

KEYS = 64
WORDS = {'cpu': (1e6, 'microseconds of processors'), 'in': (1, 'datagrams in'), 'out': (1, 'datagrams out')}
KINDS = {'a': 'acceptors', 'l': 'leaders', 'r': 'managers'}
# two-phase commit whose coordinators store their decisions
LOGGED = ('PostgreSQL, with a log', 'PostgreSQL, with many logs')


class Client:
    """A client that has its lines under way by itself: it is told when an answer has come."""

    def __init__(self, number, serial, file, leader='l0', may_abort=False):
        self.number, self.serial, self.leader = number, serial, leader
        self.right = {b'0', b'undecided', b'committed'} | ({b'aborted'} if may_abort else set())
        cluster = Cluster(file)
        self.ends = {name: Connection(name, cluster.addresses[name], cluster.key and cluster.proof(name), 5)
                     for name in ('r0', 'r1', leader)}
        self.left = dict.fromkeys(self.ends, b'')
        for end in self.ends.values():
            end.socket.setblocking(True)
        self.sockets = {name: end.socket.fileno() for name, end in self.ends.items()}

    def send(self, name, *lines):
        self.ends[name].socket.sendall(''.join(line + '\n' for line in lines).encode())
        self.wanted[name] += len(lines)

    def begin(self):
        self.serial += 1
        self.begun = time.perf_counter()
        self.wanted = dict.fromkeys(self.ends, 0)
        gtrid = '%04x%012x' % (self.number, self.serial)
        self.tx, key, self.is_asked = '1:%s/0=61,1=62' % gtrid, '%04x%02x' % (self.number, self.serial % KEYS), False
        for name, bqual in (('r0', '61'), ('r1', '62')):
            xid = '%s 1:%s:%s' % (name, gtrid, bqual)
            self.send(name, 'start ' + xid, 'put %s %s %08x' % (xid, key, self.serial & 0xffffffff), 'end ' + xid)

    def come(self, name):
        """An answer has come. The times to the outcome and to both views, when all is there."""
        data = self.left[name] + self.ends[name].socket.recv(65536)
        lines = data.split(b'\n')
        self.left[name] = lines.pop()
        self.wanted[name] -= len(lines)
        if not self.right.issuperset(lines):
            raise SystemExit('%s is answered at %s to %s' % (lines, name, self.tx))
        if name == self.leader and self.wanted[name] == 0:
            self.outcome = time.perf_counter() - self.begun
        if any(self.wanted.values()):
            return None
        if not self.is_asked:
            self.is_asked = True
            self.send(self.leader, 'commit %s %s' % (self.leader, self.tx), 'await %s %s' % (self.leader, self.tx))
            for rm in ('r0', 'r1'):
                self.send(rm, 'await %s %s' % (rm, self.tx))
            return None
        return self.outcome, time.perf_counter() - self.begun


def drive(make, numbers, seconds, most, serial, pipe):
    """Clients in one process, for a while or until each has made so many transactions."""
    clients = [make(number, serial) for number in numbers]
    poll, at, times = select.epoll(), {}, []
    for client in clients:
        for name, number in client.sockets.items():
            poll.register(number, select.EPOLLIN)
            at[number] = client, name
    pipe.send('ready')
    pipe.recv()
    until = time.time() + seconds
    for client in clients:
        client.begin()
    live = len(clients)
    while live:
        for number, _event in poll.poll():
            client, name = at[number]
            took = client.come(name)
            if took:
                times.append(took)
                if time.time() < until and client.serial < serial + most:
                    client.begin()
                else:
                    live -= 1
    pipe.send(times)


def run(make, clients, seconds, most=1 << 40, serial=0):
    """The times of the transactions of so many clients, and for how long they ran. `make(number, serial)` makes a client."""
    count = min(clients, 4)
    pipes, processes = [], []
    for number in range(count):
        mine, other = multiprocessing.Pipe()
        args = (make, range(number, clients, count), seconds, most, serial, other)
        processes.append(multiprocessing.Process(target=drive, args=args, daemon=True))
        pipes.append(mine)
    for process in processes:
        process.start()
    for pipe in pipes:
        pipe.recv()
    for pipe in pipes:
        pipe.send('go')
    times, begun = [], time.time()
    for pipe in pipes:
        while not pipe.poll(0.2):
            if not all(process.is_alive() or process.exitcode == 0 for process in processes):
                raise SystemExit('a client has ended')
        times += pipe.recv()
    took = time.time() - begun
    for process in processes:
        process.join()
    return times, took


def build_clients(folder):
    """The program of bench/clients.c, built in a folder."""
    program, source = os.path.join(folder, 'clients'), os.path.join(os.path.dirname(os.path.abspath(__file__)), 'clients.c')
    try:
        include = subprocess.run(['pg_config', '--includedir'], check=True, capture_output=True, text=True).stdout.strip()
    except FileNotFoundError:
        raise SystemExit('not installed: apt-get install libpq-dev; or --python, for slower clients')
    subprocess.run(['cc', '-O2', '-pthread', '-I' + include, '-o', program, source, '-lpq'], check=True)
    return program


class Load:
    """Clients of bench/clients.c of one kind: `nodes` of a cluster by its file, PostgreSQL `servers`, these `logged`, `threaded` too, or
    `ended` by the nodes. `words` are what the servers' connections and the log are."""

    def __init__(self, program, kind, file=None, words='-'):
        self.program, self.kind, self.file, self.words = program, kind, file, words

    def sockets(self):
        """Open sockets of two managers and a leader, whose proofs were given."""
        cluster = Cluster(self.file)
        ends = [Connection(name, cluster.addresses[name], cluster.key and cluster.proof(name), 5) for name in ('r0', 'r1', 'l0')]
        for end in ends:
            end.socket.setblocking(True)
        return [end.socket for end in ends]

    def start(self, numbers, seconds, most, serial):
        """A process with these clients, once they are connected."""
        held = {number: self.sockets() if self.file else [] for number in numbers}
        words = ['%d=%s' % (number, ','.join(str(one.fileno()) for one in ends)) for number, ends in held.items()]
        sockets = [one for ends in held.values() for one in ends]
        process = subprocess.Popen([self.program, self.kind, str(seconds), str(most), str(serial), self.words, *words], text=True,
                                   stdin=subprocess.PIPE, stdout=subprocess.PIPE, pass_fds=[one.fileno() for one in sockets])
        for one in sockets:
            one.close()
        if process.stdout.readline() != 'ready\n':
            raise SystemExit('the clients did not start')
        return process

    def run(self, clients, seconds, most=1 << 40, serial=0):
        """As `run`, and the seconds of processors that the clients took."""
        count = min(clients, 4)
        processes = [self.start(range(number, clients, count), seconds, most, serial) for number in range(count)]
        for process in processes:
            process.stdin.write('g')
            process.stdin.flush()
        times, took, cpu = [], 0.0, 0.0
        for process in processes:
            *lines, last = process.communicate()[0].splitlines() or ['']
            if process.returncode:
                raise SystemExit('a client has ended')
            times += [tuple(int(word) / 1e6 for word in line.split()) for line in lines]
            ran, used = map(float, last.split())
            took, cpu = max(took, ran), cpu + used
        return times, took, cpu


class PythonLoad:
    """Clients in Python, which `make(number, serial)` makes."""

    def __init__(self, make):
        self.make = make

    def run(self, clients, seconds, most=1 << 40, serial=0):
        return *run(self.make, clients, seconds, most, serial), None


def at(times, part):
    return 1000 * times[min(len(times) - 1, int(part * len(times)))]


def figures(times, took, cpu):
    """Of one turn: transactions a second, times to the outcome and to both views, and what clients took of processors, if that is known."""
    outcomes, views = sorted(one[0] for one in times), sorted(one[1] for one in times)
    return (len(times) / took, at(outcomes, 0.5), at(outcomes, 0.99), at(views, 0.5), at(views, 0.99),
            float('nan') if cpu is None else 1e6 * cpu / len(times))


def rates(turns):
    """The medians over turns, and the least and the greatest rate where there are several."""
    *told, cpu = (statistics.median(column) for column in zip(*turns))
    said = '%6.0f a second; to the outcome %.2f ms (99th percentile %.2f), to both views %.2f ms (%.2f)' % tuple(told)
    said = said if cpu != cpu else '%s; clients %.0f microseconds of processors each' % (said, cpu)
    some = [turn[0] for turn in turns]
    return said if len(turns) == 1 else '%s; from %.0f to %.0f a second' % (said, min(some), max(some))


def totals(cluster):
    """By kind of node, what `info` counts, and seconds of the processors."""
    client, found = Cluster(cluster.file), collections.defaultdict(collections.Counter)
    for name in cluster.names:
        found[name[0]].update({word: count for word, count in client.info(name).items() if isinstance(count, int)})
        found[name[0]]['cpu'] += cluster.cpu(name)
    client.close()
    return found


def measure(cluster, load, seconds):
    for number, clients in enumerate((1, 8, 32)):
        before = totals(cluster)
        times, took, cpu = load.run(clients, seconds, serial=(number + 1) << 32)
        after = totals(cluster)
        print('%2d clients: %s' % (clients, rates([figures(times, took, cpu)])), flush=True)
    for word, parts in each(before, after, len(times)).items():
        tell_parts('32 clients', word, parts)


def each(before, after, count):
    """What a transaction took of each kind of node, by `totals` before so many of them and after."""
    return {word: {kind: (after[kind][word] - before[kind][word]) / count for kind in KINDS}
            for word in ('appends', 'groups', 'in', 'out', 'cpu')}


def tell_parts(who, word, parts):
    unit, name = WORDS.get(word, (1, word))
    told = ', '.join('%s %.2f' % (KINDS[kind], unit * part) for kind, part in parts.items())
    print('%s: %s for a transaction: %.2f (%s)' % (who, name, unit * sum(parts.values()), told), flush=True)


def by_turns(kinds, bases, seconds, turns, clusters):
    """Loads turn and turn about: medians, and how many times as many transactions a second each does as those at `bases` in the same turn.
    What a transaction takes of the nodes of clusters, by the name of their load, of most clients."""
    serial = 0
    for clients in (1, 8, 32):
        told, parts = collections.defaultdict(list), collections.defaultdict(list)
        for _ in range(turns):
            for kind, load in kinds.items():
                serial += 1
                before = totals(clusters[kind]) if kind in clusters else None
                times, took, cpu = load.run(clients, seconds / turns, serial=serial << 32)
                told[kind].append(figures(times, took, cpu))
                if before:
                    parts[kind].append(each(before, totals(clusters[kind]), len(times)))
        for kind in kinds:
            ratios = ['%.2f times %s' % (statistics.median(mine[0] / other[0] for mine, other in zip(told[kind], told[base])), base)
                      for base in bases]
            print('%2d clients, %-27s %s; %s' % (clients, kind + ':', rates(told[kind]), '; '.join(ratios)), flush=True)
    for kind in clusters:
        for word in parts[kind][0]:
            middle = {node: statistics.median(turn[word][node] for turn in parts[kind]) for node in KINDS}
            tell_parts('32 clients, %s' % kind, word, middle)


def tell_memory(cluster):
    for name in cluster.names:
        print('%s: %.1f MB in memory, record %.1f MB' % (name, cluster.memory(name) / 1024, len(cluster.record(name)) / 1e6), flush=True)


def start(cluster, count):
    """How long a start over so many transactions takes, by each node. On a machine that is busy for long a few may be aborted."""
    times, took = run(lambda n, serial: Client(n, serial, cluster.file, may_abort=True), 32, 1 << 30, most=count // 32, serial=9 << 32)
    print('%d transactions in %.0f s' % (len(times), took), flush=True)
    tell_memory(cluster)
    for name in cluster.names:
        cluster.kill(name)
        begun = time.monotonic()
        cluster.start(name)
        took = time.monotonic() - begun
        print('%s: listens %.2f s after its start, %.1f MB in memory' % (name, took, cluster.memory(name) / 1024), flush=True)


def keep_busy(file, number, stop):
    """A client that goes on whatever happens."""
    client = Cluster(file)
    while not stop.is_set():
        try:
            client.run(lambda tx: [tx.put(rm, b'k%d' % number, b'1') for rm in (0, 1)])
        except Exception:
            time.sleep(0.01)


def take_over(cluster, rounds):
    """From a kill of the first leader until every branch that was prepared then has its outcome."""
    stop = multiprocessing.Event()
    clients = [multiprocessing.Process(target=keep_busy, args=(cluster.file, number, stop), daemon=True) for number in range(8)]
    for one in clients:
        one.start()
    votes, took = [Votes(cluster, rm) for rm in (0, 1)], []
    for _ in range(rounds):
        time.sleep(0.5)
        cluster.kill('l0')
        begun = time.monotonic()
        waiting = set().union(*(one.read() for one in votes))
        while waiting and time.monotonic() - begun < 60:
            time.sleep(0.002)
            left = waiting & set().union(*(one.read() for one in votes))
            took += [time.monotonic() - begun] * (len(waiting) - len(left))
            waiting = left
        cluster.start('l0')
    stop.set()
    for one in clients:
        one.join(5)
        one.kill()
    took.sort()
    if not took:
        raise SystemExit('no votes were open when the leader was killed')
    print('first leader killed %d times, %d votes open then: their outcome came after %.2f s in the median, %.2f in the 99th percentile, '
          '%.2f at most' % (rounds, len(took), at(took, 0.5) / 1000, at(took, 0.99) / 1000, took[-1]), flush=True)


def kinds_beside(cluster, program, dsns, log):
    """The loads that are compared, in C where their program is given, else in Python. With a log the syncs of a process's clients come one
    after another; with many logs each client's has a thread of its own, so that the clients limit neither side. Not so in Python."""
    from postgresql_clients import PostgresClient
    if program:
        words = '|'.join([*dsns, log])
        return {
            'pcommit': Load(program, 'nodes', cluster.file),
            'PostgreSQL, without a log': Load(program, 'servers', words=words),
            'PostgreSQL, with a log': Load(program, 'logged', words=words),
            'PostgreSQL, with many logs': Load(program, 'threaded', words=words),
            'PostgreSQL, by pcommit': Load(program, 'ended', cluster.file, words),
        }
    return {
        'pcommit': PythonLoad(lambda n, serial: Client(n, serial, cluster.file)),
        'PostgreSQL, without a log': PythonLoad(lambda n, serial: PostgresClient(n, serial, dsns)),
        'PostgreSQL, with a log': PythonLoad(lambda n, serial: PostgresClient(n, serial, dsns, log=log)),
        'PostgreSQL, by pcommit': PythonLoad(lambda n, serial: PostgresClient(n, serial, dsns, file=cluster.file)),
    }


def beside_postgresql(cluster, program, folder, seconds, turns):
    """pcommit's own managers, PostgreSQL's two-phase commit, and PostgreSQL ended by pcommit and by a coordinator that logs, on the same
    disk."""
    from postgresql_clients import make_tables
    from servers import Servers
    os.chmod(folder, 0o755)
    servers = Servers(folder, accounts=1)
    kinds = kinds_beside(cluster, program, [one.dsn for one in servers.all], os.path.join(folder, 'log'))
    try:
        make_tables(servers)
        by_turns(kinds, [kind for kind in kinds if kind in LOGGED], seconds, turns, {})
    finally:
        servers.stop()


def nodes_load(cluster, program):
    """The load of a cluster alone, in C where its program is given, else in Python."""
    return Load(program, 'nodes', cluster.file) if program else PythonLoad(lambda n, serial: Client(n, serial, cluster.file))


def beside_program(cluster, other, program, folder, seconds, turns):
    """The same load over a cluster of another program, on the same disk."""
    os.mkdir(folder)
    with Processes(other, folder) as beside:
        beside.start()
        clusters = {'this': cluster, 'beside': beside}
        by_turns({name: nodes_load(one, program) for name, one in clusters.items()}, ['beside'], seconds, turns, clusters)


def main():
    words = argparse.ArgumentParser()
    words.add_argument('--program', default='bin/pcommit_node')
    words.add_argument('--folder', help='where the records are (a new folder in it)')
    words.add_argument('--seconds', type=float, default=10)
    words.add_argument('--beside', metavar='FILE', help='another program of a node')
    words.add_argument('--turns', type=int, default=7)
    words.add_argument('--memory', action='store_true')
    words.add_argument('--start', type=int)
    words.add_argument('--take-over', type=int)
    words.add_argument('--bundled', action='store_true')
    words.add_argument('--postgresql', action='store_true', help='needs /usr/bin/python3 with psycopg2')
    words.add_argument('--python', action='store_true', help='clients in Python')
    words.add_argument('--syncs', type=float, metavar='MS', help='how long a sync takes at least')
    asked = words.parse_args()
    folder = tempfile.mkdtemp(prefix='pcommit-bench-', dir=asked.folder)
    try:
        program = None if asked.python or asked.start or asked.take_over else build_clients(folder)
        if asked.syncs:
            os.environ.update(LD_PRELOAD=preload(folder, 'slow_syncs'), SYNC_MS=str(asked.syncs))
            print('a sync takes %g ms at least' % asked.syncs, flush=True)
        with Processes(asked.program, folder, bundled=asked.bundled) as cluster:
            cluster.start()
            if asked.start:
                start(cluster, asked.start)
            elif asked.postgresql:
                beside_postgresql(cluster, program, folder, asked.seconds, asked.turns)
            elif asked.beside:
                beside_program(cluster, asked.beside, program, os.path.join(folder, 'beside'), asked.seconds, asked.turns)
            elif asked.take_over:
                take_over(cluster, asked.take_over)
            else:
                measure(cluster, nodes_load(cluster, program), asked.seconds)
            if asked.memory:
                tell_memory(cluster)
    finally:
        shutil.rmtree(folder)


if __name__ == '__main__':
    main()
