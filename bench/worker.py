"""What the scripts of this folder share: how a worker is built, asked, and counted by valgrind; the jobs of bench/run and bench/count; tables."""
import argparse
import collections
import os
import re
import shutil
import subprocess
import sys

from script import Trouble

TOP = os.path.dirname(os.path.dirname(os.path.abspath(__file__)))
ROOM = os.path.join(TOP, "target", "bench")
KEYS = {16: "AES-128", 24: "AES-192", 32: "AES-256"}  # bytes of a key, and the cipher that they choose
PROGRAMS = ["measure.c", "yardstick.c"]  # what the worker of the jobs below is made of
LENGTHS = [11, 64, 1500, 4096, 65536]
Job = collections.namedtuple("Job", "name word m length")  # the name that the tables have, and what the worker's line has
JOBS = (
    [Job(f"set-up, m = {m}", "set-up", m, 0) for m in (1, 8, 26)]
    + [Job(f"set-up and seal, m = {m}", "set-up-and-seal", m, 64) for m in (8, 26)]
    + [Job(word, word, 26, length) for word in ("seal", "open") for length in LENGTHS]
)


def cc():
    return os.environ.get("CC", "gcc")


def need(*tools):
    for tool in tools:
        if not shutil.which(tool):
            raise Trouble(f"needs {tool}, which is not on the path")


def build_library():
    if subprocess.run([os.path.join(TOP, "library", "build")], stdout=sys.stderr).returncode:
        raise Trouble("the library was not built")


def compiled(top, programs, words, worker):
    """Builds a worker of a checkout, with that checkout's own programs in C and header and the library that it has built."""
    sources = [*[os.path.join(top, "bench", program) for program in programs], os.path.join(top, "target", "library", "libocb_c.a")]
    for source in sources:
        if not os.path.isfile(source):
            raise Trouble(f"there is no {source}")
    os.makedirs(ROOM, exist_ok=True)
    flags = ["-std=gnu11", "-Wall", "-Wextra", "-O3", "-Wl,-z,now"]  # -z now: else a first call has the dynamic linker's work in it
    if subprocess.run([cc(), *flags, f"-I{top}/include", *sources, *words, "-o", worker]).returncode:
        raise Trouble(f"the worker of {top} was not built")


def counted(words, functions, line, what):
    """Instructions that run inside the functions while a worker answers a line, and the words of its answer."""
    counter = ["valgrind", "--tool=callgrind", *[f"--toggle-collect={function}" for function in functions], "--callgrind-out-file=/dev/null"]
    done = subprocess.run([*counter, *words], input=line, text=True, capture_output=True)
    found = re.search(r"Collected : (\d+)", done.stderr)
    instructions = int(found.group(1)) if found else 0
    if not instructions or not done.stdout:
        raise Trouble(f"valgrind counted nothing for {what}")
    return instructions, done.stdout.split()


class Worker:
    """A worker that was started. Its name is what troubles call it."""

    def __init__(self, name, words, environment):
        self.name = name
        try:
            self.process = subprocess.Popen(words, env={**os.environ, **environment}, stdin=subprocess.PIPE, stdout=subprocess.PIPE, text=True)
        except OSError as error:
            raise Trouble(f"{self.name} does not start: {error}")

    def ask(self, line, what):
        """The words of the answer to a line."""
        try:
            self.process.stdin.write(line)
            self.process.stdin.flush()
            answer = self.process.stdout.readline().split()
        except OSError:
            answer = []
        if not answer:
            raise Trouble(f"{self.name} gave no answer to {what}")
        return answer

    def stop(self):
        self.process.stdin.close()
        self.process.wait()


def whole(word):
    """A number from 1."""
    if not word.isascii() or not word.isdigit() or int(word) == 0:
        raise argparse.ArgumentTypeError(f"wants a number from 1, not '{word}'")
    return int(word)


def row(cells):
    """A line of a table."""
    print("| " + " | ".join(cells) + " |", flush=True)


def microseconds(nanoseconds):
    return f"{nanoseconds / 1000:,.{2 if nanoseconds < 10_000 else 1 if nanoseconds < 100_000 else 0}f}"


def with_key(words, key):
    """The words that start a worker with a key of that many bytes. 16 goes without saying: a checkout may know no other."""
    return words if key == 16 else [*words, str(key)]


def line_of(job, count):
    """What a worker is asked."""
    return f"{job.word} {job.m} {job.length} {count}\n"


def takes(words, key):
    """Whether a worker sets up and seals with a key of that many bytes. One that reads lines of another form gives no answer."""
    job = next(job for job in JOBS if job.word == "set-up-and-seal")
    done = subprocess.run(with_key(words, key), input=line_of(job, 1), text=True, capture_output=True)
    return done.returncode == 0 and done.stdout != ""


def keys_taken(words, folder):
    """The key lengths that the worker of a checkout takes."""
    taken = [key for key in KEYS if takes(words, key)]
    if not taken:
        raise Trouble(f"the worker of {folder} gave no answer: its bench/measure.c may read other lines than this checkout's")
    return taken
