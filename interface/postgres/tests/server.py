"""A PostgreSQL server of the tests' own. The machine's programs are copied beside the extension, into a folder of the
server's, and find their other files from there; its data, socket and log stand there too. So nothing of the machine is
changed. The server takes no root: of root's tests it belongs to nobody."""
import os
import pwd
import shutil
import subprocess
import tempfile
import time
from pathlib import Path

TOP = str(Path(__file__).resolve().parents[3])
SUPERUSER = "tester"
SETTINGS = """\
listen_addresses = ''
unix_socket_directories = '{folder}'
unix_socket_permissions = 0777
fsync = off
shared_buffers = 16MB
max_connections = 20
max_wal_senders = 0
wal_level = minimal
autovacuum = off
jit = off
timezone = 'UTC'
log_timezone = 'UTC'
log_error_verbosity = verbose
log_parameter_max_length_on_error = -1
"""


def said(*words):
    return subprocess.run(words, capture_output=True, text=True, check=True).stdout.strip()


def linked(folder, place):
    """Links each file of a folder of the machine in the folder that has its place, beside what stands there."""
    os.makedirs(place, exist_ok=True)
    for name in os.listdir(folder):
        if os.path.isdir(f"{place}/{name}"):
            linked(f"{folder}/{name}", f"{place}/{name}")
        elif not os.path.lexists(f"{place}/{name}"):
            os.symlink(f"{folder}/{name}", f"{place}/{name}")


def options_of(settings):
    """What a session is told of its settings; of one of a module `__` stands for the point."""
    return " ".join(f"-c {name.replace('__', '.')}={value}" for name, value in settings.items())


def hex_of(document):
    """The octets as SQL has them in a literal, without its quotes."""
    return f"\\x{document.hex()}"


class Answer:
    """What psql said: the rows of the last statement that had some, what is for people, and its status."""

    def __init__(self, ran):
        self.text, self.error, self.status = ran.stdout.rstrip("\n"), ran.stderr, ran.returncode

    @property
    def rows(self):
        return [line.split("|") for line in self.text.splitlines()]


class Session:
    """A session that stays, from `with` to its end."""

    def __init__(self, server, database):
        self.process = subprocess.Popen(server.words(database), stdin=subprocess.PIPE, stdout=subprocess.PIPE,
                                        stderr=subprocess.STDOUT, text=True)

    def __enter__(self):
        return self

    def __exit__(self, *_):
        self.process.communicate("")

    def ask(self, statement):
        """What a statement answers, or its error."""
        self.process.stdin.write(f"{statement};\n\\echo -- answered\n")
        self.process.stdin.flush()
        lines = []
        while (line := self.process.stdout.readline()) not in ("-- answered\n", ""):
            lines.append(line)
        return "".join(lines).rstrip("\n")


class Server:
    """The server of a tree, from `with` to its end."""

    def __init__(self, tree, pg_config="pg_config"):
        # (a socket's name has at most 107 octets)
        self.place = tempfile.TemporaryDirectory(prefix="pg", dir="/tmp")
        self.folder = self.place.name
        shutil.copytree(tree, f"{self.folder}/tree")
        folders = [said(pg_config, f"--{it}") for it in ("bindir", "pkglibdir", "sharedir")]
        self.bin, self.lib, self.share = (f"{self.folder}/tree{it}" for it in folders)
        shutil.copytree(folders[0], self.bin)
        for folder in folders[1:]:
            linked(folder, f"{self.folder}/tree{folder}")
        self.log_name = f"{self.folder}/log"
        self.how = {}
        if os.geteuid() == 0:
            owner = pwd.getpwnam("nobody")
            self.how = {"user": owner.pw_uid, "group": owner.pw_gid, "extra_groups": []}
            os.chown(self.folder, owner.pw_uid, owner.pw_gid)

    def __enter__(self):
        data = f"{self.folder}/data"
        words = [f"{self.bin}/initdb", "-D", data, "-A", "trust", "-U", SUPERUSER, "-N", "-E", "UTF8", "--no-locale"]
        subprocess.run(words, check=True, stdout=subprocess.DEVNULL, cwd=self.folder, **self.how)
        with open(f"{data}/postgresql.conf", "a", encoding="utf-8") as file:
            file.write(SETTINGS.format(folder=self.folder))
        with open(self.log_name, "w", encoding="utf-8") as log:
            self.process = subprocess.Popen([f"{self.bin}/postgres", "-D", data], stdin=subprocess.DEVNULL, stdout=log,
                                            stderr=log, cwd=self.folder, **self.how)
        for _ in range(300):
            if self.psql("SELECT 1").status == 0:
                return self
            if self.process.poll() is not None:
                break
            time.sleep(0.1)
        raise RuntimeError(f"the server doesn't begin: {self.log()}")

    def __exit__(self, *_):
        # (SIGINT: sessions are ended)
        self.process.send_signal(2)
        self.process.wait(60)
        self.place.cleanup()

    def words(self, database):
        """The words for psql."""
        return [f"{self.bin}/psql", "-XqAt", "-h", self.folder, "-U", SUPERUSER, "-d", database,
                "--set=VERBOSITY=verbose", "--set=SHOW_CONTEXT=always"]

    def psql(self, script, database="postgres", **settings):
        """Runs a script, in a session that has these settings."""
        told = {**os.environ, "PGOPTIONS": options_of(settings), "PGCLIENTENCODING": "UTF8"}
        return Answer(subprocess.run([*self.words(database), "--set=ON_ERROR_STOP=1"], input=script, env=told,
                                     capture_output=True, text=True))

    def value(self, query, database="postgres", **settings):
        """What a query answers, or why there is no answer."""
        answer = self.psql(query, database, **settings)
        return answer.text if answer.status == 0 else answer.error

    def database(self, name, more=""):
        """Makes a database with the extension, and returns its name."""
        made = self.psql(f"CREATE DATABASE {name} {more};\n\\c {name}\nCREATE EXTENSION pkder;")
        if made.status:
            raise RuntimeError(made.error)
        return name

    def client(self, program, *words, **settings):
        """Runs another program of the server's clients, in sessions that have these settings."""
        told = {**os.environ, "PGOPTIONS": options_of(settings)}
        words = [f"{self.bin}/{program}", "-h", self.folder, "-U", SUPERUSER, *words]
        return Answer(subprocess.run(words, env=told, capture_output=True, text=True, cwd=self.folder))

    def bound(self, query, document, database, **settings):
        """Runs a query whose parameter :document is bound to the octets, as drivers do it."""
        with tempfile.NamedTemporaryFile("w", suffix=".sql") as file:
            file.write(f"{query};\n")
            file.flush()
            return self.client("pgbench", "-n", "-t", "1", "-M", "extended", "-D", f"document={hex_of(document)}", "-f",
                               file.name, database, **settings)

    def log(self):
        with open(self.log_name, encoding="utf-8", errors="replace") as file:
            return file.read()
