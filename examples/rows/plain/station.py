"""What `station` writes of many jobs: the number of each board and the text of its run."""

import re

from plain.image import Fault, answer, start
from plain.job import lines_of, read_job

BOARDS, TURNS = 16, 4194304  # the most boards, and the most turns of all of them


def headers_of(text):
    """The lines that begin a board, or the first fault of one."""
    lines = lines_of(text)
    if not lines:
        return Fault(text.count("\n") + (text[-1:] not in ("", "\n")) + 1, "Missing")
    if lines[0].words[0] != "[board]":
        return Fault(lines[0].number, "BadSection")
    headers = [line for line in lines if line.words[0] == "[board]"]
    for number, header in enumerate(headers):
        if number == BOARDS:
            return Fault(header.number, "OverLimit")
        if len(header.words) > 1:
            return Fault(header.number, "UnknownWord")
    return [header.number for header in headers]


def parts_of(text, headers):
    """The text of each job, with an empty line in place of each line before it."""
    lines = re.findall(r"[^\n]*\n|[^\n]+", text)
    ends = [header - 1 for header in headers[1:]] + [len(lines)]
    return ["\n" * header + "".join(lines[header:end]) for header, end in zip(headers, ends)]


def line_past(parts):
    """The line of the charge with which all charges up to there list too many turns; none where they don't."""
    turns = 0
    for part in parts:
        lines = [line.number for line in lines_of(part) if line.words[0] == "charge"]
        for line, charge in zip(lines, read_job(part).charges, strict=True):
            turns += sum(count for _, count in charge.items)
            if turns > TURNS:
                return line
    return None


def answer_of_station(text, flags=()):
    """What `station` with these flags writes of jobs that have no fault in front of their images, or the first fault."""
    headers = headers_of(text)
    if isinstance(headers, Fault):
        return headers
    parts = parts_of(text, headers)
    for part in parts:
        words = start(read_job(part))
        if isinstance(words, Fault):
            return words
    past = line_past(parts)
    if past is not None:
        return Fault(past, "OverLimit")
    return "".join(f"board {number}\n{answer(read_job(part), flags)}" for number, part in enumerate(parts))
