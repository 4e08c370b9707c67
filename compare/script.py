"""What the scripts of this folder share: trouble is one line and exit status 2, and progress goes to standard error."""

import argparse
import sys
import time


class Trouble(Exception):
    """Something that the user has to put right, said in one line."""


class Arguments(argparse.ArgumentParser):
    """Command-line options; a wrong one is trouble."""

    def error(self, message):
        raise Trouble(f"{message} (--help lists the options)")


class Progress:
    """A count on standard error: one line that is written over on a terminal, else a line now and then."""

    def __init__(self, total, things="cases"):
        self.total = total
        self.things = things
        self.start = self.last = time.monotonic()

    def show(self, done, note):
        now = time.monotonic()
        terminal = sys.stderr.isatty()
        if done < self.total and now - self.last < (0.2 if terminal else 5):
            return
        self.last = now
        line = f"{done:,} of {self.total:,} {self.things}, {done / max(now - self.start, 0.001):,.0f} a second, {note}"
        print(f"\r{line}\033[K" if terminal else line, end="\n" if done == self.total or not terminal else "", file=sys.stderr, flush=True)


def say(line):
    print(line, file=sys.stderr, flush=True)


def main(name, work):
    """Runs `work`, whose value is the exit status."""
    try:
        sys.exit(work())
    except Trouble as trouble:
        message = str(trouble)
    except OSError as error:
        message = f"{error.strerror}: {error.filename}" if error.filename else str(error)
    except KeyboardInterrupt:
        message = "stopped"
    say(f"{name}: {message}")
    sys.exit(2)
