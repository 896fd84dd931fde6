"""Clusters of real processes for tests: each node at an address of its own on loopback, all over one folder."""
import os
import random
import signal
import socket
import subprocess
import sys
import threading
import time

HERE = os.path.dirname(os.path.abspath(__file__))
sys.path.insert(0, os.path.join(HERE, '..', '..', 'examples', 'cluster'))
KINDS = (('acceptor', 'a'), ('leader', 'l'), ('rm', 'r'))
# The process went down with its record, and is to be started again
DOWN = 3
ZEROS = '00' * 32
# whoever ends a test has it stop what it has started
signal.signal(signal.SIGTERM, lambda *_: sys.exit(1))


def address():
    """An address on loopback that no other run has, nor the ports that the system gives to those who connect."""
    number = random.SystemRandom().randrange(1 << 22)
    return '127.%d.%d.%d' % (64 + (number >> 16), number >> 8 & 255, 1 + number % 254)


def ports(host, count):
    """Ports that are free for both kinds of sockets."""
    held, found = [], []
    while len(found) < count:
        stream, datagram = socket.socket(), socket.socket(socket.AF_INET, socket.SOCK_DGRAM)
        held += [stream, datagram]
        stream.bind((host, 0))
        try:
            datagram.bind((host, stream.getsockname()[1]))
        except OSError:
            continue
        found.append(stream.getsockname()[1])
    for one in held:
        one.close()
    return found


def preload(folder, name='fail_writes'):
    """A shim before the C library, built: the one that makes writes to records fail, or another."""
    library = os.path.join(folder, name + '.so')
    if not os.path.exists(library):
        source = os.path.join(HERE, '..', name + '.c')
        subprocess.run(['cc', '-O1', '-shared', '-fPIC', '-o', library, source, '-ldl'], check=True)
    return library


def until(holds, most=20.0):
    """Whether something holds before long, in seconds."""
    end = time.monotonic() + most
    while not holds():
        if time.monotonic() > end:
            return False
        time.sleep(0.05)
    return True


class Processes:
    """A cluster in a folder: its files, its processes, and who starts them again when they go down with status 3.

    `key` and `client_key` are 64 hex digits or None; `tables` the first contents, one dict of hex a manager; `names` what is said of timed
    names, and `beside` which managers speak for a database; `env` has what the environment of each process has besides. `through` maps
    (node, node) to the place to which the first sends what is for the second."""

    def __init__(self, program, folder, tables=({}, {}), acceptors=3, leaders=2, key=ZEROS, client_key=ZEROS[:-1] + '1', bundled=False,
                 env=None, clock=None, names=None, beside=()):
        self.program, self.folder = os.path.abspath(program), folder
        self.records = os.path.join(folder, 'records')
        os.makedirs(self.records, exist_ok=True)
        self.tables, self.bundled, self.keys = list(tables), bundled, {'key': key, 'client_key': client_key}
        self.env, self.clock, self.named, self.beside = env or {}, clock or {}, names or {}, beside
        self.counts = {'a': acceptors, 'l': leaders, 'r': len(self.tables)}
        self.names = [letter + str(n) for _kind, letter in KINDS for n in range(self.counts[letter])]
        self.host = address()
        free = ports(self.host, 2 * len(self.names))
        # where a node is found by the others, and by clients
        self.nodes = {name: (self.host, port) for name, port in zip(self.names, free)}
        self.clients = {name: (self.host, port) for name, port in zip(self.names, free[len(self.names):])}
        self.through = {}
        self.running, self.statuses, self.lock = {}, [], threading.Lock()
        self.wanted, self.is_watched = set(), False
        self.starts = dict.fromkeys(self.names, 0)
        for name, value in self.keys.items():
            if value:
                self.write(name, value + '\n')
        self.file = self.write_files()

    def write(self, name, words):
        path = os.path.join(self.folder, name)
        with open(path, 'w') as out:
            os.fchmod(out.fileno(), 0o600)
            out.write(words)
        return path

    def write_files(self):
        """Writes the cluster's file as each node has it, and as clients have it."""
        for name in self.names:
            self.write(name + '.toml', self.said(name))
        return self.write('cluster.toml', self.said(None))

    def said(self, own):
        words = ['bundled = ' + str(self.bundled).lower()]
        words += ['%s = "%s"' % (name, name) for name, value in self.keys.items() if value]
        for kind, letter in KINDS:
            for number in range(self.counts[letter]):
                name = letter + str(number)
                node = self.through.get((own, name), self.nodes[name])
                words += ['[[%s]]' % kind, 'node = "%s:%d"' % node, 'client = "%s:%d"' % self.clients[name]]
                if letter == 'r' and self.tables[number]:
                    rows = ', '.join('"%s" = "%s"' % row for row in self.tables[number].items())
                    words.append('table = { %s }' % rows)
                if letter == 'r' and number in self.beside:
                    words.append('beside = true')
        if self.clock:
            words += ['[time]'] + ['%s = %d' % row for row in self.clock.items()]
        if self.named:
            words += ['[names]', 'timed = true'] + ['%s = %d' % row for row in self.named.items()]
        return '\n'.join(words) + '\n'

    def command(self, name):
        return [self.program, os.path.join(self.folder, name + '.toml'), name, self.records]

    def start(self, *names, wait=True):
        """Starts nodes, all where none is named, and waits until their clients could come."""
        names = names or self.names
        for name in names:
            with self.lock:
                self.spawn(name)
        for name in names if wait else ():
            self.until_open(name)

    def spawn(self, name):
        self.starts[name] += 1
        env = dict(os.environ, **self.env)
        env['PCOMMIT_SEED'] = str(hash_of(env.get('PCOMMIT_SEED', ''), name, self.starts[name]))
        with open(os.path.join(self.folder, name + '.log'), 'ab') as log:
            self.running[name] = subprocess.Popen(self.command(name), stdin=subprocess.DEVNULL, stdout=log, stderr=log, env=env)
        self.wanted.add(name)

    def until_open(self, name, most=20.0):
        until = time.monotonic() + most
        while time.monotonic() < until:
            try:
                socket.create_connection(self.clients[name], timeout=1).close()
                return
            except OSError:
                time.sleep(0.005)
            process = self.running.get(name)
            if process and process.poll() is not None and not self.is_watched:
                break
        raise SystemExit('%s does not listen: %s' % (name, self.log(name)[-300:]))

    def log(self, name):
        with open(os.path.join(self.folder, name + '.log'), errors='replace') as log:
            return log.read()

    def kill(self, name, number=signal.SIGKILL):
        """Kills a node. Whether it was running."""
        with self.lock:
            self.wanted.discard(name)
            process = self.running.pop(name, None)
            if not process:
                return False
            was_there = process.poll() is None
            if was_there:
                process.send_signal(number)
            status = process.wait()
        if not was_there:
            self.statuses.append((name, status))
        return was_there

    def pause(self, name, is_paused):
        self.running[name].send_signal(signal.SIGSTOP if is_paused else signal.SIGCONT)

    def watch(self):
        """Starts nodes again that ended by themselves, from now on, as a service manager would."""
        self.is_watched = True
        self.watcher = threading.Thread(target=self.watching, daemon=True)
        self.watcher.start()

    def watching(self):
        while self.is_watched:
            with self.lock:
                for name in list(self.wanted):
                    status = self.running[name].poll()
                    if status is not None:
                        self.statuses.append((name, status))
                        if status == DOWN:
                            self.spawn(name)
                        else:
                            self.wanted.discard(name)
            time.sleep(0.02)

    def ended(self):
        """How often nodes went down with status 3, and those that ended in another way."""
        return sum(status == DOWN for _name, status in self.statuses), [one for one in self.statuses if one[1] != DOWN]

    def memory(self, name):
        """How many KB a node has in memory."""
        with open('/proc/%d/status' % self.running[name].pid) as status:
            return next(int(line.split()[1]) for line in status if line.startswith('VmRSS'))

    def cpu(self, name):
        """Seconds that a node has taken of the processors."""
        with open('/proc/%d/stat' % self.running[name].pid) as stat:
            words = stat.read().rsplit(')', 1)[1].split()
        return (int(words[11]) + int(words[12])) / os.sysconf('SC_CLK_TCK')

    def record(self, name):
        with open(os.path.join(self.records, name + '.rec'), 'rb') as record:
            return record.read()

    def lose(self, name, endings=('rec', 'cluster')):
        """A node's disk is lost: its record is gone, and what stood beside it."""
        for ending in endings:
            try:
                os.remove(os.path.join(self.records, '%s.%s' % (name, ending)))
            except FileNotFoundError:
                pass

    def stop(self):
        """Stops all."""
        self.is_watched = False
        for name in list(self.running):
            self.kill(name)

    def __enter__(self):
        return self

    def __exit__(self, *_error):
        self.stop()


def hash_of(*words):
    """A number by which a run can be made again, since `hash` differs from process to process."""
    number = 7
    for byte in repr(words).encode():
        number = (number * 31 + byte) % 2147483647
    return number
