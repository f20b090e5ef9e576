"""Images: the checks that the words of one have to meet, when it is worn, the change of the earlier form, and what a job that has one is."""

import re
from typing import NamedTuple

from plain.board import Board
from plain.kernel import origin_of_source
from plain.told import Told, run_text
from plain.words import EARLIER, EXPIRED, FINISHED, FIRST, HEADER, NEXT, ORIGIN, OUTPUTS, SERVED, STAMP, TODAY, VALUE, Places, due, first_words, taken, written

READINGS = 65535  # the most that a source may have
POSITIONS = 16 * READINGS  # the greatest tail


class Fault(NamedTuple):
    line: int
    cause: str


def checks(told):
    """Each check in order: the address that is named where it fails, and whether it holds. One may be looked at where those before it hold."""
    yield from code_checks(told)
    yield from commit_checks(told)
    for thread in told.threads:
        yield from block_checks(told, thread)
    for pipe in range(len(told.program.pipes)):
        yield from pipe_checks(told, pipe)
    yield from log_checks(told)
    for thread in told.threads:
        yield from queue_checks(told, thread)
    for source in told.sources:
        yield from source_checks(told, source)


def code_checks(told):
    for number, task in enumerate(told.program.tasks):
        for offset, instruction in enumerate(task.code):
            address = told.places.code(number, offset)
            yield address, told.words[address] == instruction.word


def commit_checks(told):
    for number, thread in enumerate(told.program.threads):
        address = told.places.commit(number)
        yield address, told.words[address] < 1 << thread.pages


def block_checks(told, thread):
    for word in range(8 * told.program.threads[thread].pages):
        yield told.committed(thread, word), block_word_holds(told, thread, word, told.head(thread, word))


def block_word_holds(told, thread, word, value):
    program, runs = told.program, told.head(thread, NEXT) != 0
    if word == NEXT and runs:
        return value <= len(program.tasks) and program.tasks[value - 1].thread == thread
    if word == FIRST:
        return value <= told.words[told.places.clock]
    if word == ORIGIN and runs:
        return value in origins(told, thread, value)
    if word == VALUE and runs:
        origin = told.head(thread, ORIGIN)
        return value == origin & 0xFFFFFFFF if origin >> 56 == 3 else value < 1 << 32
    if word == OUTPUTS:
        return value <= program.threads[thread].log
    if written(0) <= word < due(0):
        pipe, owner = (word - written(0), "writer") if word < taken(0) else (word - taken(0), "reader")
        return value == 0 or pipe < len(program.pipes) and getattr(program.pipes[pipe], owner) == thread
    if due(0) <= word < due(8):
        timer = (word - due(0)) // 2
        is_own = timer < len(program.timers) and program.timers[timer].thread == thread
        return value <= (0 if not is_own else 1 << 48 if word == due(timer) else (1 << 32) - 1)
    if word >= HEADER:
        return value < 1 << 32 if word < HEADER + program.threads[thread].state else value == 0
    return value == 0 if word >= due(8) else True


def origins(told, thread, word):
    """The origins that a running chain of the thread may have, of those with the numbers of this word."""
    program = told.program
    number = word % (1 << 16)
    if told.form is EARLIER or number < 64:
        yield from (origin_of_source(source, number) for source in told.sources if program.sources[source] == thread)
    for number, pipe in enumerate(program.pipes):
        count = told.head(thread, taken(number))
        if pipe.reader == thread and 1 <= count <= 1 << 32:
            yield 2 << 56 | number << 32 | count - 1
    yield from (3 << 56 | number << 48 | word % (1 << 48) for number, timer in enumerate(program.timers) if timer.thread == thread)


def pipe_checks(told, number):
    pipe = told.program.pipes[number]
    count, gone = told.head(pipe.writer, written(number)), told.head(pipe.reader, taken(number))
    yield told.committed(pipe.writer, written(number)), gone <= count <= gone + pipe.places
    for item in range(gone, count):
        address = told.places.ring(number, item)
        yield address, told.words[address] < 1 << 32


def log_checks(told):
    earlier = set()
    for thread in told.threads:
        stamps = [0]
        for number in range(told.head(thread, OUTPUTS)):
            address = told.places.log(thread, number)
            stamp = told.words[address] >> 32
            yield address, 1 <= stamp <= told.head(thread, STAMP) and stamp >= stamps[-1] and stamp not in earlier
            stamps.append(stamp)
        earlier.update(stamps)


def queue_checks(told, thread):
    places, words, first, held = told.places, told.words, told.released(thread), told.held(thread)
    for position in range(first, first + told.program.threads[thread].queue):
        is_empty = position < 1 << 21 and words[places.slot(thread, position)] == told.form.empty(position)
        yield places.slot(thread, position), position < first + len(held) or is_empty
    tail = words[places.tail(thread)]
    yield places.tail(thread), tail == told.published(thread) or tail + 1 == told.published(thread)
    if told.has_finished(thread):
        yield told.committed(thread, FINISHED), not any(map(told.has_finished, range(thread)))
        yield told.committed(thread, NEXT), told.head(thread, NEXT) == 0
    origin = told.head(thread, ORIGIN)
    if told.head(thread, NEXT) != 0 and origin >> 56 == 1:
        serves = [(origin_of_source(full.source, full.number), full.value) for full in held[:1]]
        yield told.committed(thread, ORIGIN), serves == [(origin, told.head(thread, VALUE))]


def source_checks(told, source):
    return source_checks_earlier(told, source) if told.form is EARLIER else source_checks_today(told, source)


def source_checks_today(told, source):
    src, ack = told.places.src(source), told.places.ack(source)
    yield src, told.words[src] & 0xFFFFFFFF <= told.words[src] >> 32
    own, accepted = told.own(source), told.source(source).accepted
    gone = accepted - len(own)
    for before, full in enumerate(own):
        yield told.places.slot(told.program.sources[source], full.position), gone >= 0 and full.number == (gone + before) % 64
    allowed = [gone % 64, (gone + 1) % 64] if told.first_is_finished(source) else [gone % 64]
    yield ack, told.words[ack] in allowed


def source_checks_earlier(told, source):
    own, ack = told.own(source), told.places.ack(source)
    for before, full in zip(own, own[1:]):
        yield told.places.slot(told.program.sources[source], full.position), before.number < full.number
    if own:
        yield ack, told.words[ack] <= own[0].number + told.first_is_finished(source)


def failing(told):
    """The address of the first check that fails, none where the words are an image."""
    return next((address for address, holds in checks(told) if not holds), None)


def is_worn(told, listed):
    program = told.program
    counts = [told.head(thread, word) for thread in told.threads for word in (STAMP, *range(SERVED, EXPIRED + 1))]
    counts += [told.head(pipe.writer, written(number)) for number, pipe in enumerate(program.pipes)]
    counts += [told.head(pipe.reader, taken(number)) for number, pipe in enumerate(program.pipes)]
    into = [sum(listed[source] for source in told.sources if program.sources[source] == thread) for thread in told.threads]
    return (
        any(told.source(source).next + listed[source] > READINGS for source in told.sources)
        or told.words[told.places.clock] >= 1 << 46
        or any(count >= 1 << 31 for count in counts)
        or any(told.published(thread) + into[thread] > POSITIONS for thread in told.threads)
    )


def renewed(told):
    """The words of an image of the earlier form, in today's."""
    program, places, words = told.program, told.places, list(told.words)
    for thread in told.threads:
        held, first = told.held(thread), told.released(thread)
        counts = {}
        for full in held:
            counts[full.source] = counts.get(full.source, -1) + 1
            words[places.slot(thread, full.position)] = TODAY.full(full.position, full.source, counts[full.source], full.value)
        for position in range(first + len(held), first + program.threads[thread].queue):
            words[places.slot(thread, position)] = TODAY.empty(position)
        origin = told.head(thread, ORIGIN)
        if told.head(thread, NEXT) != 0 and origin >> 56 == 1:
            words[told.committed(thread, ORIGIN)] = origin >> 16 << 16
    for source in told.sources:
        words[places.src(source)] = told.source(source).next << 32 | len(told.own(source))
        words[places.ack(source)] = 0
    return words


def start(job):
    """The words that a job's run begins at, or the fault of its image."""
    if job.header is None:
        return first_words(job.program)
    header = job.header.number
    if len(job.header.words) > 1:
        return Fault(header, "UnknownWord")
    tokens = [(line.number, word) for line in job.image for word in line.words]
    further = [line.number for line in job.image if line.words[0].startswith("[")]
    if further:
        return Fault(further[0], "BadSection")
    for number, token in tokens:
        if not re.fullmatch("[0-9a-fA-F]{16}", token):
            return Fault(number, "BadWord")
    if len(tokens) != Places(job.program).size:
        return Fault(header, "WrongShape")
    told = Told(job.program, [int(token, 16) for _, token in tokens], EARLIER if job.header.words == ["[image1]"] else TODAY)
    address = failing(told)
    if address is not None:
        return Fault(tokens[address][0], "NotStanding")
    if is_worn(told, list(map(len, job.readings))):
        return Fault(header, "Worn")
    return renewed(told) if told.form is EARLIER else told.words


def prepared(job, words):
    """The board before the first charge: in front of the listed readings of a source stand those that it has settled."""
    told = Told(job.program, words)
    readings = [[0] * told.source(source).next + job.readings[source] for source in told.sources]
    return Board(job.program, readings, list(words))


def answer(job, flags=()):
    """What `run` with these flags writes of a job, or the fault of its image."""
    words = start(job)
    if isinstance(words, Fault):
        return words
    board = prepared(job, words)
    board.run(job.charges)
    return run_text(board, len(job.charges), flags)
