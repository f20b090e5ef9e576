"""Words of the earlier form: those of a board whose words are in today's. Its events have no count, and so it takes the journal up to there."""

from plain.told import Told
from plain.words import EARLIER, NEXT, ORIGIN


def accepted_readings(entries, source):
    """The numbers of the readings that the entries of a journal publish, of one source, from the first image on."""
    readings, following = [], 0
    for entry in entries:
        if entry == f"Push S{source}":
            readings.append(following)
        following += entry in (f"Push S{source}", f"Skip S{source}")
    return readings


def earlier_words(board):
    """Those of a board that began at the first image."""
    told, words, program = Told(board.program, board.words), list(board.words), board.program
    readings = {}  # of each held event, by its thread and position
    for source in told.sources:
        accepted, own = accepted_readings(board.entries, source), told.own(source)
        gone = len(accepted) - len(own)
        for number, full in zip(accepted[gone:], own):
            readings[program.sources[source], full.position] = number
        released = gone + (told.words[told.places.ack(source)] != gone % 64)
        words[told.places.src(source)] = told.words[told.places.src(source)] >> 32
        words[told.places.ack(source)] = accepted[released - 1] + 1 if released else 0
    for thread in told.threads:
        first = told.released(thread)
        for position in range(first, first + program.threads[thread].queue):
            full = told.slot(thread, position)
            earlier = EARLIER.empty(position) if full is None else EARLIER.full(position, full.source, readings[thread, position], full.value)
            words[told.places.slot(thread, position)] = earlier
        origin = told.head(thread, ORIGIN)
        if told.head(thread, NEXT) != 0 and origin >> 56 == 1:
            words[told.committed(thread, ORIGIN)] = origin >> 16 << 16 | readings[thread, first]
    return words
