"""A client of a cluster of pcommit_node processes. It needs Python 3.11 and nothing else.

    from pcommit_client import Cluster

    cluster = Cluster('cluster.toml')
    with cluster.begin() as tx:                 # a transaction over several resource managers
        balance = int(tx.get(0, b'alice'))      # manager 0
        tx.put(0, b'alice', b'%d' % (balance - 10))
        tx.put(1, b'bob', b'10')                # manager 1
    # here it is committed at both, or one of the errors below was raised

    cluster.run(work)                           # calls work(tx), and calls it anew where its transaction was aborted

What can be raised, and what then holds:
    Conflict  another transaction holds a key; this one is rolled back, and can be tried again
    Aborted   nothing of the transaction will ever be seen: it can be tried again
    Unknown   it was asked to commit, and no answer came: it may be committed now or later, or aborted. `settle(error.tx)` asks
              again; only what it answers is known. Never run such a work again before that
    Refused   a call that the transaction can't do, as a key that is too long; it is rolled back
    Forgotten it stands below a floor: it is over, and its outcome isn't kept any more. It may be committed: never run such a work again
A Cluster is for one thread: give each thread its own."""
import hashlib
import hmac
import os
import socket
import time
import tomllib

KINDS = (('acceptor', 'a'), ('leader', 'l'), ('rm', 'r'))
FINAL = ('committed', 'aborted')
FORGOTTEN = 'refused 17'
# the words of `info` behind which a place in the order of names stands
PLACES = ('floor', 'rise')


class Aborted(Exception):
    """Nothing of the transaction will ever be seen."""


class Conflict(Aborted):
    """Another transaction holds a key."""


class Unknown(Exception):
    """It was asked to commit, and no answer came."""

    def __init__(self, tx):
        super().__init__('no answer came: the outcome of %s is not known' % tx)
        self.tx = tx


class Refused(Exception):
    """A call that can't be done."""


class Forgotten(Exception):
    """A transaction is over, and its outcome isn't kept any more."""

    def __init__(self, tx):
        super().__init__('%s is over, and its outcome is not kept any more' % tx)
        self.tx = tx


class Gone(OSError):
    """A node can't be reached, or went away before it answered."""


class Connection:
    """Lines to one node, and its answers."""

    def __init__(self, name, address, proof, patience):
        self.name = name
        try:
            self.socket = socket.create_connection(address, timeout=patience)
        except OSError as error:
            raise Gone('%s: %s' % (name, error)) from error
        self.socket.setsockopt(socket.IPPROTO_TCP, socket.TCP_NODELAY, 1)
        self.buffer = b''
        if proof:
            word, challenge = (self.answer(patience).split() + [''])[:2]
            if word != 'challenge':
                raise Gone('%s asks for no proof: is client_key in its file?' % name)
            self.send(['proof ' + proof(bytes.fromhex(challenge))])

    def send(self, lines):
        try:
            self.socket.sendall(''.join(line + '\n' for line in lines).encode())
        except OSError as error:
            raise Gone('%s: %s' % (self.name, error)) from error

    def answer(self, patience):
        """The next line that the node answers."""
        until = time.monotonic() + patience
        while b'\n' not in self.buffer:
            try:
                self.socket.settimeout(max(until - time.monotonic(), 0.001))
                data = self.socket.recv(65536)
            except OSError as error:
                raise Gone('%s: %s' % (self.name, error)) from error
            if not data:
                raise Gone('%s closed the connection' % self.name)
            self.buffer += data
        line, self.buffer = self.buffer.split(b'\n', 1)
        return line.decode()

    def close(self):
        self.socket.close()


class Cluster:
    """A cluster, by its file. `patience` is for how many seconds one node is waited for, `most` for how many an outcome is."""

    def __init__(self, file, patience=2.0, most=30.0):
        with open(file, 'rb') as text:
            self.file = tomllib.load(text)
        self.patience, self.most = patience, most
        self.addresses = {}
        for kind, letter in KINDS:
            for number, node in enumerate(self.file.get(kind, [])):
                if 'client' in node:
                    host, port = node['client'].rsplit(':', 1)
                    self.addresses['%s%d' % (letter, number)] = (host.strip('[]'), int(port))
        self.leaders = [name for name in self.addresses if name[0] == 'l']
        self.key = None
        if 'client_key' in self.file:
            with open(os.path.join(os.path.dirname(file), self.file['client_key'])) as key:
                self.key = bytes.fromhex(key.read().strip())
        self.connections = {}

    def close(self):
        for name in list(self.connections):
            self.forget(name)

    def forget(self, name):
        """Lets the connection to a node go: after an answer that didn't come, the next line would be taken for it."""
        connection = self.connections.pop(name, None)
        if connection:
            connection.close()

    def proof(self, name):
        """What a node's challenge is answered with."""
        words = b'client' + name.encode() + digest(self.file)
        return lambda challenge: hmac.new(self.key, words + challenge, hashlib.sha256).hexdigest()

    def ask(self, name, *lines, patience=None):
        """The answers of a node to lines. Gone where one didn't come."""
        patience = patience or self.patience
        try:
            if name not in self.connections:
                proof = self.proof(name) if self.key else None
                self.connections[name] = Connection(name, self.addresses[name], proof, patience)
            connection = self.connections[name]
            connection.send(lines)
            return [connection.answer(patience) for _ in lines]
        except Gone:
            self.forget(name)
            raise

    def info(self, name):
        """What a node counts, by its words, as `appends` or `dropped`; its `floor`, if it has one; and, of a manager that speaks for a
        database, to where its floor may `rise`."""
        words = self.ask(name, 'info')[0].split()
        return {word: count if word in PLACES else int(count) for word, count in zip(words[2::2], words[3::2])}

    def raise_floor(self, rm, name):
        """Has a manager's floor rise to a name, FORMAT:GTRID: what stands below is over, and forgotten. Refused where a branch is there."""
        answer = self.ask('r%d' % rm, 'floor r%d %s' % (rm, name))[0]
        if answer != 'ok':
            raise Refused('the floor of r%d: %s' % (rm, answer))

    def table(self, rm):
        """The rows of a manager's table."""
        words = self.ask('r%d' % rm, 'table r%d' % rm)[0].split()
        return {raw(key): raw(value) for key, value in (word.split('=') for word in words[1:])}

    def begin(self):
        """A new transaction."""
        return Transaction(self)

    def run(self, work, attempts=100):
        """What `work(tx)` answers, of a transaction that is committed: tried again where it was aborted, after a while that grows."""
        for attempt in range(attempts):
            try:
                with self.begin() as tx:
                    answer = work(tx)
                return answer
            except Aborted:
                if attempt + 1 == attempts:
                    raise
            time.sleep(min(0.001 * 2 ** attempt, 0.25) * (0.5 + os.urandom(1)[0] / 256))

    def is_recent(self, tx):
        """Whether a transaction is so young, by the time in its name, that its outcome is kept still."""
        names = self.file.get('names', {})
        time_of = int.from_bytes(rank(tx)[1][:6], 'big')
        return bool(names.get('timed')) and time_of > time.time() * 1000 - names.get('keep', 600000)

    def settle(self, tx, most=None):
        """The outcome of a transaction that a leader is asked to commit, and another where one doesn't answer. Gone where no leader
        could be reached at all, so that none was asked; Unknown where none answered an outcome in time; Forgotten where all that answered
        have forgotten it: of one that is kept still all leaders have to say so, since one that was replaced just now says so of all."""
        until = time.monotonic() + (self.most if most is None else most)
        was_asked, reason = False, 'the file names no leader with a place for clients'
        while True:
            said = []
            for leader in list(self.leaders):
                try:
                    self.ask(leader)
                    was_asked = True
                    answer = self.ask(leader, 'commit %s %s' % (leader, tx), 'await %s %s' % (leader, tx))[-1]
                except Gone as error:
                    reason = error
                    # the others are asked first from now on
                    self.leaders.remove(leader)
                    self.leaders.append(leader)
                    continue
                if answer in FINAL:
                    return answer
                said.append(answer)
            # one leader may have forgotten what another still knows
            if said and set(said) == {FORGOTTEN} and (len(said) == len(self.leaders) or not self.is_recent(tx)):
                raise Forgotten(tx)
            if time.monotonic() > until:
                break
            time.sleep(0.05)
        if was_asked:
            raise Unknown(tx)
        raise Gone(str(reason))


def digest(file):
    """What a cluster is known by: the hash of all that its records take as fixed, as it stands in NAME.cluster beside each."""
    words = [bytes([len(file.get(kind, [])) for kind, _letter in KINDS] + [file.get('bundled', False)])]
    for manager in file.get('rm', []):
        rows = sorted(manager.get('table', {}).items())
        words.append(len(rows).to_bytes(8, 'big'))
        for part in (bytes.fromhex(word) for row in rows for word in row):
            words += [len(part).to_bytes(8, 'big'), part]
    return hashlib.sha256(b''.join(words)).digest()


class Transaction:
    """A transaction: a branch at each resource manager that it touches. As a `with` block it is committed at the end of the block, or
    rolled back where the block raises."""

    def __init__(self, cluster):
        self.cluster = cluster
        # the time first, in ms, so that names stand in the order of their times, and a floor is a point of time
        self.gtrid = int(time.time() * 1000).to_bytes(6, 'big').hex() + os.urandom(10).hex()
        self.branches = []
        self.outcome = None

    def __enter__(self):
        return self

    def __exit__(self, kind, _error, _trace):
        if kind is not None:
            self.rollback()
        else:
            self.commit()

    def xid(self, rm):
        return '1:%s:%02x' % (self.gtrid, rm)

    @property
    def name(self):
        """The transaction as leaders know it."""
        return '1:%s/%s' % (self.gtrid, ','.join('%d=%02x' % (rm, rm) for rm in sorted(self.branches)))

    def call(self, rm, verb, *words):
        """The answer to a call on the branch at a manager, which is started where it isn't yet."""
        if self.outcome:
            raise Refused('the transaction has ended')
        node = 'r%d' % rm
        lines = [' '.join((verb, node, self.xid(rm)) + words)]
        if rm not in self.branches:
            self.branches.append(rm)
            lines.insert(0, 'start %s %s' % (node, self.xid(rm)))
        try:
            answers = self.cluster.ask(node, *lines)
        except Gone as error:
            self.rollback()
            raise Aborted(str(error)) from error
        line, answer = lines[-1], answers[-1]
        if answers[0] != '0' and len(answers) > 1:
            line, answer = lines[0], answers[0]
        if answer == '0' or answer == 'none' or answer.startswith('value '):
            return answer
        self.rollback()
        if answer == 'refused 9':
            raise Conflict('%s: another transaction holds the key' % node)
        # the branch is gone, since the manager has stopped or it was idle for too long; or its name is below the floor; or it is down
        if answer in ('-4', '-7', '-8', 'refused 5', 'refused 8', 'refused 11'):
            raise Aborted('%s: %s' % (node, answer))
        if answer == 'refused 19':
            raise Refused('%s: the name is not of its time: does this clock agree with the manager\'s? %s' % (node, line[:80]))
        raise Refused('%s: %s is answered to: %s' % (node, answer, line[:80]))

    def get(self, rm, key):
        """The value of a key, None where it has none."""
        answer = self.call(rm, 'get', text(key))
        return None if answer == 'none' else raw(answer.split()[1])

    def put(self, rm, key, value):
        self.call(rm, 'put', text(key), text(value))

    def delete(self, rm, key):
        self.call(rm, 'del', text(key))

    def rollback(self):
        """Ends the branches, if they weren't asked to commit. Where a manager can't be reached, it rolls back what was left alone."""
        if self.outcome:
            return
        self.outcome = 'aborted'
        for rm in self.branches:
            words = ('r%d' % rm, self.xid(rm))
            try:
                self.cluster.ask(words[0], 'end %s %s fail' % words, 'rollback %s %s' % words)
            except Gone:
                pass

    def commit(self):
        """Ends the branches and asks a leader to commit. Aborted, or Unknown, where it isn't committed for certain."""
        for rm in list(self.branches):
            self.call(rm, 'end')
        if not self.branches:
            self.outcome = 'committed'
            return
        try:
            outcome = self.cluster.settle(self.name)
        except Gone as error:
            # no leader was asked, so no manager will be
            self.rollback()
            raise Aborted(str(error)) from error
        except Unknown:
            self.outcome = 'unknown'
            raise
        except Forgotten:
            self.outcome = 'forgotten'
            raise
        self.outcome = outcome
        if self.outcome == 'aborted':
            raise Aborted('%s is aborted' % self.name)


def rank(name):
    """What compares as a transaction, or a place FORMAT:GTRID, stands in the order of names."""
    number, gtrid = name.split('/')[0].split(':')[:2]
    return int(number), bytes.fromhex(gtrid)


def text(data):
    """Bytes as the lines have them."""
    return data.hex() or '-'


def raw(word):
    return b'' if word == '-' else bytes.fromhex(word)
