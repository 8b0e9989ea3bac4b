"""The programs that are tried, what they make, and the table of what held."""

import re
import subprocess
import sys
from contextlib import contextmanager
from pathlib import Path

from server import ServerError


class NotHeld(Exception):
    """Something is not as it should be."""


class NotTried(Exception):
    """A trial lacks something that it takes."""


class Programs:
    """flashback and binlog, run on this machine."""

    def __init__(self, flashback, binlog):
        self.flashback, self.binlog = Path(flashback).absolute(), Path(binlog).absolute()
        for program in (self.flashback, self.binlog):
            if not program.exists():
                raise ServerError(f"no program {program}: run make first")
        text = self._run(self.binlog, "--help").decode()
        self.commands = set(re.findall(r"(?m)^(?:Usage:)? *binlog ([a-z]+)", text))

    @staticmethod
    def _run(*command):
        done = subprocess.run([str(word) for word in command], stdin=subprocess.DEVNULL, capture_output=True)
        if done.returncode != 0:
            raise NotHeld(f"{Path(command[0]).name} {command[1]}: {done.stderr.decode(errors='replace').strip()}")
        return done.stdout

    def plain(self, log, result):
        self._run(self.binlog, "plain", log, "-r", result)

    def undo(self, log, result, *options):
        self._run(self.flashback, "-B", *options, "-r", result, log)

    def command(self, name, log, *options):
        """What a command of binlog prints for a log."""
        if name not in self.commands:
            raise NotTried(f"binlog has no command {name}")
        return self._run(self.binlog, name, *options, log)

    def refusal(self, name, log, *options):
        """What a command of binlog says of a log from which it writes nothing."""
        command = [self.binlog, name, *options, log]
        done = subprocess.run([str(word) for word in command], stdin=subprocess.DEVNULL, capture_output=True)
        hold(done.returncode == 1 and not done.stdout, f"binlog {name} ended with {done.returncode}, and printed {len(done.stdout)} bytes")
        return done.stderr.decode(errors="replace")


class Report:
    """What held, for each trial on each server."""

    def __init__(self):
        self.servers = []
        self.outcomes = {}
        self.failed = False

    def begin(self, server, settings):
        self.servers.append(f"{server.kind.name} {server.version}, {settings}")
        print(self.servers[-1], flush=True)

    @contextmanager
    def trial(self, name):
        """A trial is the block below it. What the block raises is its outcome; it may add notes."""
        notes, cause = [], ""
        try:
            yield notes
            outcome = "held"
        except NotTried as reason:
            outcome, cause = "not tried", f": {reason}"
        except (NotHeld, ServerError) as reason:
            outcome, cause = "**did not hold**", f": {' '.join(str(reason).split())[:500]}"
            self.failed = True
        outcome = ", ".join([outcome, *notes])
        self.outcomes.setdefault(name, {})[self.servers[-1]] = outcome
        print(f"    {name}: {outcome}{cause}", flush=True)

    def table(self):
        """The lines of a table: a row for each trial, a column for each server."""
        yield f"| Trial | {' | '.join(self.servers)} |"
        yield "|---" * (1 + len(self.servers)) + "|"
        for name, outcomes in sorted(self.outcomes.items(), key=lambda item: item[0][0]):
            yield f"| {' | '.join([name, *(outcomes.get(server, '') for server in self.servers)])} |"

    def count(self):
        return sum(len(outcomes) for outcomes in self.outcomes.values())


def hold(condition, message):
    if not condition:
        raise NotHeld(message)


def warn(message):
    print(f"try.py: {message}", file=sys.stderr)
