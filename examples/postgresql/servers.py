"""PostgreSQL servers in a folder, on loopback, for the demonstration and the tests. A server doesn't run as root, so root starts them as
the user `postgres`."""
import glob
import os
import pwd
import signal
import socket
import subprocess
import time

import psycopg2

FIRST = 1000


def programs():
    """Where the newest PostgreSQL's programs are."""
    found = sorted(glob.glob('/usr/lib/postgresql/*/bin'), key=lambda path: int(path.split('/')[4]))
    if not found:
        raise SystemExit('not installed: apt-get install postgresql python3-psycopg2')
    return found[-1]


def free_port():
    with socket.socket() as end:
        end.bind(('127.0.0.1', 0))
        return end.getsockname()[1]


class Server:
    def __init__(self, folder, number):
        self.bin, self.number, self.data = programs(), number, os.path.join(folder, 'pg%d' % number)
        self.port, self.process = free_port(), None
        self.user = 'postgres' if os.getuid() == 0 else None
        self.dsn = 'host=127.0.0.1 port=%d user=postgres dbname=postgres' % self.port
        os.makedirs(self.data)
        if self.user:
            os.chown(self.data, pwd.getpwnam('postgres').pw_uid, -1)
        self.run('initdb', '-A', 'trust', '-U', 'postgres', '-D', self.data, '--no-sync')

    def run(self, name, *words):
        subprocess.run([os.path.join(self.bin, name), *words], check=True, stdout=subprocess.DEVNULL, user=self.user, cwd='/')

    def start(self):
        settings = {'port': self.port, 'listen_addresses': '127.0.0.1', 'unix_socket_directories': '', 'max_prepared_transactions': 200,
                    'max_connections': 200}
        words = [os.path.join(self.bin, 'postgres'), '-D', self.data]
        for name, value in settings.items():
            words += ['-c', '%s=%s' % (name, value)]
        with open(self.data + '.log', 'ab') as log:
            self.process = subprocess.Popen(words, stdout=log, stderr=log, user=self.user, cwd='/')
        for _ in range(600):
            try:
                psycopg2.connect(self.dsn).close()
                return
            except psycopg2.OperationalError:
                time.sleep(0.05)
        raise SystemExit('PostgreSQL does not start: see %s.log' % self.data)

    def kill(self):
        """Stops it as a crash would: what was committed or prepared is there at its next start."""
        if self.process:
            self.process.send_signal(signal.SIGQUIT)
            self.process.wait()
            self.process = None

    def connect(self):
        connection = psycopg2.connect(self.dsn)
        connection.autocommit = True
        return connection

    def ask(self, words, *values):
        connection = self.connect()
        try:
            with connection.cursor() as cursor:
                cursor.execute(words, values)
                return cursor.fetchall() if cursor.description else []
        finally:
            connection.close()

    def make_accounts(self, count):
        self.ask('CREATE TABLE account (number int PRIMARY KEY, balance int NOT NULL)')
        self.ask('INSERT INTO account SELECT n, %s FROM generate_series(0, %s) n', FIRST, count - 1)

    def balances(self):
        return dict(self.ask('SELECT number, balance FROM account'))

    def prepared(self):
        return [gid for gid, in self.ask('SELECT gid FROM pg_prepared_xacts')]


class Servers:
    """Two servers, with the same accounts."""

    def __init__(self, folder, accounts=16):
        self.all = [Server(folder, number) for number in (0, 1)]
        try:
            for one in self.all:
                one.start()
                one.make_accounts(accounts)
        except BaseException:
            self.stop()
            raise

    def __getitem__(self, number):
        return self.all[number]

    def sum(self):
        return sum(sum(one.balances().values()) for one in self.all)

    def prepared(self):
        return [one.prepared() for one in self.all]

    def stop(self):
        for one in self.all:
            one.kill()
