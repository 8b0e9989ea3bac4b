"""Real servers to try an undo on: each in a tree of Debian packages, with a data folder and a socket of its own."""

import os
import shutil
import subprocess
import tempfile
import time
from collections import namedtuple
from pathlib import Path

MIRROR = "http://deb.debian.org/debian"
NOBODY = 65534
START_SECONDS = 120
END_SECONDS = 60

Kind = namedtuple("Kind", "name folder suite packages daemon client")
MYSQL = Kind("MySQL", "mysql", "sid", ("mysql-server-core", "mysql-client-core"), "/usr/sbin/mysqld", "mysql")
MARIADB = Kind("MariaDB", "mariadb", "bookworm", ("mariadb-server-core", "mariadb-client-core"), "/usr/sbin/mariadbd", "mariadb")
KINDS = {kind.folder: kind for kind in (MYSQL, MARIADB)}


class ServerError(Exception):
    """A tree, a server or a statement failed."""


class Tree:
    """A folder with Debian's packages of one server. Programs in it run by chroot."""

    def __init__(self, kind, trees):
        self.kind = kind
        self.root = Path(trees).absolute() / kind.folder

    def make(self):
        """Makes the tree unless it is there. The packages start no service: there is nothing in the tree that could."""
        if os.geteuid() != 0:
            raise ServerError("run it as root: servers are started by chroot")
        if self.root.exists():
            return
        if not shutil.which("debootstrap"):
            raise ServerError(f"no tree in {self.root}, and no debootstrap to make it: apt-get install debootstrap")
        part = self.root.with_name(self.root.name + ".part")
        shutil.rmtree(part, ignore_errors=True)
        part.parent.mkdir(parents=True, exist_ok=True)
        notes = part.with_name(part.name + ".txt")
        print(f"Making {self.root} of {' and '.join(self.kind.packages)} from Debian {self.kind.suite}", flush=True)
        with open(notes, "wb") as file:
            for command in (
                ["debootstrap", "--variant=minbase", self.kind.suite, part, MIRROR],
                ["chroot", part, "apt-get", "install", "-y", "--no-install-recommends", *self.kind.packages],
            ):
                if subprocess.run(command, stdin=subprocess.DEVNULL, stdout=file, stderr=file).returncode != 0:
                    raise ServerError(f"{command[0]} failed: see {notes}")
        part.rename(self.root)
        notes.unlink()

    def command(self, *arguments):
        return ["chroot", str(self.root), *map(str, arguments)]

    def as_nobody(self, *arguments):
        """The command for a program that may not be root, and ends with this one even if this one is killed."""
        owner = f"--reuid={NOBODY}", f"--regid={NOBODY}", "--clear-groups", "--pdeathsig=TERM"
        return self.command("setpriv", *owner, *arguments)


Answer = namedtuple("Answer", "status output errors")


def answer_of(status, output, errors):
    """What a client said. MariaDB's prints the statement at fault before its error: that is left out."""
    lines = errors.decode(errors="replace").strip().splitlines()
    return Answer(status, output.decode(errors="backslashreplace"), "\n".join([line for line in lines if line.startswith("ERROR")] or lines[-3:]))


class Server:
    """A server that runs from `with` to the end of its block, however that ends."""

    def __init__(self, tree, settings=()):
        self.tree = tree
        self.kind = tree.kind
        self.settings = settings
        self.has_gtids = "--gtid-mode=ON" in settings
        self.process = None

    def __enter__(self):
        self.folder = Path(tempfile.mkdtemp(prefix="try_servers_", dir=self.tree.root / "tmp"))
        try:
            os.chown(self.folder, NOBODY, NOBODY)
            self._initialize()
            self._start()
        except BaseException:
            self.__exit__()
            raise
        return self

    def __exit__(self, *_):
        if self.process and self.process.poll() is None:
            self.process.terminate()
            try:
                self.process.wait(END_SECONDS)
            except subprocess.TimeoutExpired:
                self.process.kill()
                self.process.wait()
        shutil.rmtree(self.folder)

    def inside(self, name):
        """The path of a file of this server's folder, as programs in the tree see it."""
        return f"/tmp/{self.folder.name}/{name}"

    def _initialize(self):
        data = self.inside("data")
        if self.kind is MYSQL:
            command = [self.kind.daemon, "--no-defaults", "--initialize-insecure", f"--datadir={data}"]
        else:
            command = ["mariadb-install-db", "--no-defaults", "--force", "--auth-root-authentication-method=normal", f"--datadir={data}"]
        with open(self.folder / "initialize.txt", "wb") as notes:
            done = subprocess.run(self.tree.as_nobody(*command), stdin=subprocess.DEVNULL, stdout=notes, stderr=notes, start_new_session=True)
        if done.returncode != 0:
            raise ServerError(f"{self.kind.name} makes no data folder: " + self._last_lines("initialize.txt"))

    def _start(self):
        command = self.tree.as_nobody(
            self.kind.daemon, "--no-defaults", f"--datadir={self.inside('data')}", f"--socket={self.inside('socket')}",
            f"--pid-file={self.inside('pid')}", f"--tmpdir={self.inside('')}", "--skip-networking", "--server-id=7",
            f"--log-bin={self.inside('data/binlog')}", "--binlog-format=ROW", "--binlog-row-image=FULL",
            "--binlog-checksum=CRC32", "--sync-binlog=0", "--innodb-flush-log-at-trx-commit=0", *self.settings,
        )
        if self.kind is MYSQL:
            command += ["--mysqlx=OFF", "--secure-file-priv=NULL"]
        with open(self.folder / "server.txt", "wb") as notes:
            self.process = subprocess.Popen(command, stdin=subprocess.DEVNULL, stdout=notes, stderr=notes, start_new_session=True)
        end = time.monotonic() + START_SECONDS
        while self.run("SELECT 1").status != 0:
            if self.process.poll() is not None or time.monotonic() > end:
                raise ServerError(f"{self.kind.name} does not start: " + self._last_lines("server.txt"))
            time.sleep(0.3)
        self.version = self.query("SELECT VERSION()")[0]

    def _last_lines(self, name):
        lines = (self.folder / name).read_text(errors="replace").splitlines()
        return " / ".join([line for line in lines if "[ERROR]" in line][:3] or lines[-3:])

    def client(self, *options, user="root"):
        """The command of the server's own client."""
        return self.tree.command(self.kind.client, "--no-defaults", f"--socket={self.inside('socket')}",
                                 f"--user={user}", "--default-character-set=utf8mb4", *options)

    def run(self, text, *options, user="root"):
        """Gives a text to the client. An error is in what is returned."""
        text = text if isinstance(text, bytes) else text.encode()
        done = subprocess.run(self.client(*options, user=user), input=text, capture_output=True)
        return answer_of(done.returncode, done.stdout, done.stderr)

    def query(self, text):
        """The lines of what a text selects. An error is raised."""
        answer = self.run(text, "--batch", "--skip-column-names", "--binary-as-hex")
        if answer.status != 0:
            raise ServerError(f"{self.kind.name} {self.settings}: {answer.errors}")
        return answer.output.split("\n")[:-1]

    def apply_log(self, log):
        """Applies a log of this server's folder: mysqlbinlog --skip-gtids LOG | mysql"""
        (self.folder / log).chmod(0o644)
        printer = subprocess.Popen(self.tree.command("mysqlbinlog", "--no-defaults", "--skip-gtids", self.inside(log)),
                                   stdin=subprocess.DEVNULL, stdout=subprocess.PIPE, stderr=subprocess.PIPE)
        done = subprocess.run(self.client(), stdin=printer.stdout, capture_output=True)
        printer.stdout.close()
        errors = printer.stderr.read() + done.stderr
        printer.stderr.close()
        return answer_of(printer.wait() or done.returncode, done.stdout, errors)

    def next_log(self):
        """Ends the log, and returns the path of the one that was ended."""
        names = self.query("SHOW BINARY LOGS")
        self.query("FLUSH BINARY LOGS")
        return self.folder / "data" / names[-1].split("\t")[0]
