"""Claims: what `audit` says of a text of which it is claimed that a run of the job prints it with its journal."""

import itertools
import re
from typing import NamedTuple

from plain.image import Fault, prepared, start
from plain.job import read_job
from plain.never_cut import NeverCut
from plain.told import lines_of

HEADER = b"[journal]"


class Entry(NamedTuple):
    word: str
    of: int | None  # a source or a thread by its number, or ticks


def entry_of(program, line):
    """The entry of a line, none where it is that of no entry."""
    if line == b"Scan":
        return Entry("Scan", None)
    word, _, operand = line.decode("latin-1").partition(" ")
    sources = {f"S{number}": number for number in range(len(program.sources))}
    threads = {thread.name: number for number, thread in enumerate(program.threads)}
    of = None
    if word in ("Push", "Refuse", "Skip"):
        of = sources.get(operand)
    elif word in ("Look", "Commit", "Release"):
        of = threads.get(operand)
    elif word == "Tick" and re.fullmatch("0|[1-9][0-9]*", operand, re.ASCII) and int(operand) < 1 << 64:
        of = int(operand)
    return None if of is None else Entry(word, of)


def lines(text):
    """The lines of a text, without their line feeds; what is left behind the last one is a line where there is something."""
    pieces = text.split(b"\n")
    return pieces if pieces[-1] else pieces[:-1]


def text_of(state, journal, charges):
    """The text of a run that came to this state by this journal."""
    program = state.program
    account = {"charges": charges, "clock": state.clock, "commits": state.commits, "threads": [], "sources": []}
    for thread in state.threads:
        counts = {"served": thread.served, "trapped": thread.trapped, "expired": thread.expired, "held": len(thread.held)}
        account["threads"].append({"name": thread.made_as.name, **counts})
    for number, source in enumerate(state.sources):
        pushed, refused = journal.count(b"Push S%d" % number), journal.count(b"Refuse S%d" % number)
        account["sources"].append({"next": source.next, "pushed": pushed, "refused": refused})
    outputs = [f"{stamp} {program.threads[thread].name} {value}" for stamp, thread, value in state.outputs]
    told = "".join(f"{line}\n" for line in [*outputs, *lines_of(account)]).encode()
    return told + b"".join(line + b"\n" for line in [HEADER, *journal])


def first_difference(claim, text):
    """The first line in which two texts differ, line feeds included; none where they are the same."""
    pairs = itertools.zip_longest(*(re.findall(rb"[^\n]*\n|[^\n]+", it) for it in (claim, text)))
    return next((number for number, (left, right) in enumerate(pairs, 1) if left != right), None)


def line_of_no(job, words, claim):
    """The line at which it shows that a claim isn't right; none where it is."""
    found = lines(claim)
    if HEADER not in found:
        return len(found) + 1
    first = found.index(HEADER) + 2
    journal = found[first - 1 :]
    entries = [entry_of(job.program, line) for line in journal]
    if None in entries:
        return first + entries.index(None)
    board = prepared(job, words)
    state = NeverCut(job.program, board.readings, board.words)
    for number, entry in enumerate(entries, first):
        if not state.enter(entry):
            return number
    return first_difference(claim, text_of(state, journal, len(job.charges)))


def parted(text, header):
    """What stands before the first line that begins with the header, and what behind that line; none where there is no such line."""
    at = 0
    for line in re.findall(rb"[^\n]*\n|[^\n]+", text):
        if line.split(b"#")[0].split()[:1] == [header]:
            return text[:at], text[at + len(line) :]
        at += len(line)
    return text, None


def answer_of_audit(text):
    """What `audit` writes of a text that has no fault in front of its image, or the first fault."""
    before, claim = parted(text, b"[claim]")
    job = read_job(before.decode())
    words = start(job)
    if isinstance(words, Fault):
        return words
    if claim is None:
        return Fault(len(lines(text)) + 1, "Missing")
    line = line_of_no(job, words, claim)
    return "audit yes\n" if line is None else f"audit no {line}\n"
