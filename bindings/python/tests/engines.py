"""A PostgreSQL and a Redis of the tests' own, in a temporary folder, with Unix sockets; and what stalls a connection."""
import glob
import os
import pwd
import shutil
import socket
import subprocess
import tempfile
import threading
import time

HANGS = 60
"""Seconds after which what is waited for doesn't come."""
_STARTS = 300
"""The same of what starts a server, also on a machine that does much else."""


def _as_nobody(command):
    """PostgreSQL refuses root."""
    return ['runuser', '-u', 'postgres', '--', *command] if os.getuid() == 0 else command


def _environment():
    """An engine has no sanitizer's runtime, also if the tests run with one: a server hangs as it starts with it."""
    return {name: value for name, value in os.environ.items() if name != 'LD_PRELOAD'}


def _run(command):
    done = subprocess.run(_as_nobody(command), stdout=subprocess.PIPE, stderr=subprocess.STDOUT, universal_newlines=True, stdin=subprocess.DEVNULL,
                          env=_environment(), timeout=_STARTS)
    assert done.returncode == 0, done.stdout


class Engine:
    """A folder with a server."""

    def __init__(self, *settings):
        self.folder = tempfile.mkdtemp(prefix='fleet')
        if os.getuid() == 0:
            shutil.chown(self.folder, 'postgres')
        self.start(*settings)

    def end(self):
        self.stop()
        shutil.rmtree(self.folder)


class Postgres(Engine):
    """Why there is none is missing()."""

    @staticmethod
    def missing():
        try:
            import psycopg2  # noqa: F401
        except ImportError:
            return 'no psycopg2'
        if not Postgres.programs():
            return 'no initdb and pg_ctl'
        return _no_user()

    @staticmethod
    def programs():
        return next(iter(sorted(glob.glob('/usr/lib/postgresql/*/bin'), reverse=True)), None) or (
            os.path.dirname(shutil.which('initdb') or '') if shutil.which('pg_ctl') else None)

    def start(self, *settings):
        self.data = os.path.join(self.folder, 'data')
        self.socket = os.path.join(self.folder, '.s.PGSQL.5432')
        self.dsn = f'host={self.folder} user=fleet dbname=postgres'
        _run([os.path.join(self.programs(), 'initdb'), '-D', self.data, '-A', 'trust', '-U', 'fleet', '-E', 'UTF8', '--locale=C', '-N'])
        self.begin(*settings)

    def begin(self, *settings):
        chosen = ["listen_addresses=''", 'fsync=off', 'shared_buffers=16MB', 'max_prepared_transactions=2', *(settings or ['wal_level=logical'])]
        self._control('-l', os.path.join(self.folder, 'log'), '-o', ' '.join([f'-k {self.folder}', *(f'-c {each}' for each in chosen)]), 'start')

    def _control(self, *words):
        _run([os.path.join(self.programs(), 'pg_ctl'), '-D', self.data, '-w', *words])

    def stop(self, way='immediate'):
        """As by a crash, unless said."""
        self._control('-m', way, 'stop')


class Redis(Engine):
    """The same."""

    @staticmethod
    def missing():
        try:
            import redis  # noqa: F401
        except ImportError:
            return 'no redis-py'
        return _no_user() if shutil.which('redis-server') else 'no redis-server'

    def start(self):
        self.socket = os.path.join(self.folder, 'redis')
        self.begin()

    def begin(self):
        self.process = subprocess.Popen(_as_nobody(['redis-server', '--unixsocket', self.socket, '--unixsocketperm', '777', '--port', '0', '--save', '',
                                                    '--dir', self.folder]), stdout=subprocess.DEVNULL, env=_environment())
        until(self._is_up)

    def _is_up(self):
        import redis
        try:
            return self.client().ping()
        except redis.exceptions.ConnectionError:
            return False

    def client(self, **words):
        import redis
        return redis.Redis(unix_socket_path=self.socket, **words)

    def stop(self, way='immediate'):
        import redis
        try:
            self.client().shutdown(nosave=True)
        except redis.exceptions.ConnectionError:
            pass
        self.process.wait(HANGS)


def _no_user():
    try:
        return 'no runuser' if os.getuid() == 0 and not (pwd.getpwnam('postgres') and shutil.which('runuser')) else None
    except KeyError:
        return 'no user postgres'


def until(condition, seconds=HANGS):
    """Waits until something is so."""
    end = time.monotonic() + seconds
    while not condition():
        assert time.monotonic() < end, 'it has not come to be so'
        time.sleep(0.005)


class Proxy:
    """Stands before a server's socket. It passes on what the server says as long as it flows."""

    def __init__(self, target, name):
        self.folder = tempfile.mkdtemp(prefix='proxy')
        self.path, self.target = os.path.join(self.folder, name), target
        self.flow, self.sockets = threading.Event(), []
        self.flow.set()
        self.server = socket.socket(socket.AF_UNIX)
        self.server.bind(self.path)
        self.server.listen(16)
        threading.Thread(target=self._accept, daemon=True).start()

    def _accept(self):
        while True:
            try:
                client, _ = self.server.accept()
            except OSError:
                return
            server = socket.socket(socket.AF_UNIX)
            server.connect(self.target)
            self.sockets += [client, server]
            threading.Thread(target=self._pass, args=(client, server, False), daemon=True).start()
            threading.Thread(target=self._pass, args=(server, client, True), daemon=True).start()

    def _pass(self, source, target, may_stall):
        try:
            while data := source.recv(65536):
                if may_stall:
                    self.flow.wait()
                target.sendall(data)
        except OSError:
            pass
        for each in (source, target):
            each.close()

    def cut(self):
        """Ends all connections."""
        for each in self.sockets:
            try:
                each.shutdown(socket.SHUT_RDWR)
            except OSError:
                pass
        self.sockets.clear()
        self.flow.set()

    def end(self):
        self.cut()
        self.server.close()
        shutil.rmtree(self.folder)
