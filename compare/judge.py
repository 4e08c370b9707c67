"""What each judge demands of the port on a case, and which entry of docs/DIFFERENCES.md explains where the port departs from the crate."""

import shlex
import subprocess
from pathlib import Path
from typing import NamedTuple

import paper
from cases import BAD_CASE, Answer, framed, unframed
from script import Trouble

# The outcomes of a comparison with the crate. A star marks sizes that the crate cannot be asked: its types reject them, or m is over 27, for which its
# driver has no instance. There the port is held to the paper's table alone.
OUTCOMES = ("agreed", "D1", "D2", "D3", "D4*", "D5", "D5*")


class Unexplained(Exception):
    """A judge's answer that no rule below foresees."""


class Said(NamedTuple):
    """What the crate's driver said: its first line without the count, the count, and text and tag as the crate left them."""

    words: str
    calls: int
    text: bytes
    tag: bytes


def said(output):
    if output == BAD_CASE:
        return Said("bad case", 0, b"", b"")
    first, text, tag, end = output.decode().split("\n")
    words, _, calls = first.partition(" calls ")
    return Said(words, int(calls or 0), bytes.fromhex(text), bytes.fromhex(tag))


def port_command(given):
    """The words of the command line that was given, or the program that this repository builds."""
    if given:
        try:
            return shlex.split(given)
        except ValueError:
            raise Trouble(f"--port is no command line: {given}") from None
    program = Path(__file__).resolve().parent.parent / "crates/ocb_stream/out/ocb_stream"
    if not program.exists():
        raise Trouble("no crates/ocb_stream/out/ocb_stream: 'rt run </dev/null' in crates/ocb_stream builds it, or --port COMMAND names another program")
    return [str(program)]


def answers(command, raws, name):
    """Starts a program (a list of words), hands it the cases in frames and gives its answers."""
    try:
        process = subprocess.run(command, input=framed(raws), stdout=subprocess.PIPE, check=False)
    except OSError as error:
        raise Trouble(f"{name} cannot be started ({error.strerror}): {shlex.join(command)}") from None
    outputs, whole = unframed(process.stdout)
    if process.returncode != 0 or not whole or len(outputs) != len(raws):
        raise Trouble(f"{name} gives {len(outputs)} whole answers to {len(raws)} cases and ends with status {process.returncode}: {shlex.join(command)}")
    return outputs


def by_crate(case, crate, openssl):
    """The answer (None: bad case) that the port owes, given what the crate said, and the outcome that this counts as. At exactly the limit, where the crate
    gives no answer, OpenSSL's is owed."""
    if case is None:
        if crate.words != "bad case":
            raise Unexplained("the crate's driver takes the case for a good one")
        return None, "agreed"
    number = paper.refusal(case)
    untouched = (crate.text, crate.tag) == (case.text, case.tag)
    if number:
        return Answer(number, 0, case.text, case.tag), refused_by_crate(case, number, crate.words, untouched)
    if at_the_limit(case):
        return by_openssl(case, crate, openssl), unserved_by_crate(case, crate.words, untouched)
    if crate.words == "answer 0" and (not case.open or crate.tag == case.tag):
        return Answer(0, crate.calls, crate.text, crate.tag), "agreed"
    if crate.words == "answer 7" and case.open and crate.tag == case.tag:
        cleared = bytes(len(case.text))
        return Answer(7, crate.calls, cleared, case.tag), "agreed" if crate.text == cleared else "D1"
    raise Unexplained(f"the crate says '{crate.words}' where the paper has it worked on")


def refused_by_crate(case, number, words, untouched):
    """The outcome where the paper's table refuses with `number`."""
    if words == "none nonce":
        return "D4*" if len(case.nonce) < 6 else "D5*"
    if words in ("none tag", "none m"):
        return "D5*"
    if number == 1 and words == "error key" and untouched:
        return "agreed"
    if number == 2:
        return "D5"
    if number in (5, 6) and words == "error" and untouched:
        return "agreed"
    raise Unexplained(f"the crate says '{words}' where the paper refuses with {number}")


def at_the_limit(case):
    """Whether a case that is worked on has a text or data of exactly the limit."""
    return max(len(case.text), len(case.data)) == paper.limit(case.m)


def unserved_by_crate(case, words, untouched):
    """The outcome at exactly the limit: the crate's open reads a place behind its table, and its seal refuses."""
    if case.open and words == "panic":
        return "D2"
    if not case.open and words == "error" and untouched:
        return "D3"
    raise Unexplained(f"the crate says '{words}' at exactly the limit")


def by_openssl(case, crate, openssl):
    """The answer that the port owes, with the paper's count, or None where OpenSSL is not asked: it knows none of the paper's refusals. The crate's text must
    be the same, also after a wrong tag, unless the case is one of exactly the limit."""
    if case is None or paper.refusal(case):
        return None
    if case.open:
        accepted, text = openssl.open(case.key, case.nonce, case.data, case.text, case.tag)
        tag = case.tag
    else:
        text, tag = openssl.seal(case.key, case.nonce, case.data, case.text, len(case.tag))
        accepted = True
    if not at_the_limit(case) and (crate.words, crate.text, crate.tag) != ("answer 0" if accepted else "answer 7", text, tag):
        raise Unexplained("the crate and OpenSSL differ")
    return Answer(0, paper.calls(case), text, tag) if accepted else Answer(7, paper.calls(case), bytes(len(text)), tag)
