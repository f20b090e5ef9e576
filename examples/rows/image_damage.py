"""Rows of images with words that no run leaves: each check failed, alone and before the last of all."""

from image_pair import END, HI, LO, NAMES, PAIR_GOES_ON, pair_behind, slot, with_words
from image_rows import case, lines, refused
from plain.earlier import earlier_words
from plain.kernel import origin_of_source
from plain.told import Told, image_text
from plain.words import EARLIER, FINISHED, FIRST, NEXT, ORIGIN, OUTPUTS, STAMP, TODAY, VALUE, due, period, taken, written


# Each check failed in the image of the pair's board: what is wrong, and the words that are changed, the first of which is the one that is named.
# Thread lo runs a chain of its source S0's event, with one of S2 behind it; thread hi has a finished event and two more of S1.


def damages_of_code(told):
    place = told.places
    yield "the first code word", {place.code(0, 0): told.words[place.code(0, 0)] ^ 1 << 63}
    yield "a code word with a spare bit", {place.code(1, 2): told.words[place.code(1, 2)] | 1 << 20}
    yield "the last code word", {place.code(2, 8): 0}
    yield "a ninth page", {place.commit(LO): told.words[place.commit(LO)] | 1 << 8}
    yield "an eighth page", {place.commit(HI): told.words[place.commit(HI)] | 1 << 7}
    yield "a last page", {place.commit(HI): told.words[place.commit(HI)] | 1 << 63}


def damages_of_chains(told):
    now, count = told.words[told.places.clock], told.head(LO, ORIGIN) & 0xFFFF
    yield "a task of another thread", {told.committed(LO, NEXT): 3}
    yield "no task", {told.committed(LO, NEXT): 4}
    yield "the greatest task", {told.committed(LO, NEXT): END}
    yield "a chain that began later than now", {told.committed(LO, FIRST): now + 1}
    yield "an idle thread's chain that began later than now", {told.committed(HI, FIRST): now + 1}
    for name, origin in (
        ("another thread's source", origin_of_source(1, count)),
        ("no source", origin_of_source(3, count)),
        ("another count", origin_of_source(0, count + 1)),
        ("a count of 64", origin_of_source(0, 64)),
        ("a bit between source and kind", origin_of_source(0, count) | 1 << 24),
        ("a bit between count and source", origin_of_source(0, count) | 1 << 15),
        ("another of its sources", origin_of_source(2, 0)),
        ("an item that isn't there", 2 << 56 | 1 << 32),
        ("an item of a pipe that it writes", 2 << 56 | told.head(HI, taken(0)) - 1),
        ("another thread's timer", 3 << 56 | 5),
        ("no timer", 3 << 56 | 2 << 48 | 5),
        ("no kind", 4 << 56),
        ("no origin", 0),
    ):
        yield f"a chain of {name}", {told.committed(LO, ORIGIN): origin}
    yield "a value of 33 bits", {told.committed(LO, VALUE): 1 << 32}
    yield "another value than the first event's", {told.committed(LO, ORIGIN): told.head(LO, ORIGIN), told.committed(LO, VALUE): 6}


def damages_of_blocks(told):
    for name, thread, word, value in (
        ("more outputs than its log has places", LO, OUTPUTS, 9),
        ("items written to a pipe that it reads", LO, written(1), 1),
        ("items written to no pipe", LO, written(7), 1),
        ("items taken from a pipe that it writes", LO, taken(0), 1),
        ("items taken from no pipe", HI, taken(2), 1),
        ("a timer due later than 48 bits tell", LO, due(1), (1 << 48) + 1),
        ("another thread's timer", LO, due(0), 1),
        ("no timer", HI, due(7), 1),
        ("a period of 33 bits", LO, period(1), 1 << 32),
        ("another thread's period", LO, period(0), 1),
        ("no timer's period", LO, period(5), 1),
        ("the first unused word", LO, 42, 1),
        ("the last unused word", HI, 47, END),
        ("a state number of 33 bits", LO, 48, 1 << 32),
        ("the last state number of 33 bits", LO, 56, 1 << 32),
        ("a word behind the state", LO, 57, 1),
        ("the last word of a block", HI, 55, 1),
    ):
        yield name, {told.committed(thread, word): value}


def damages_of_pipes(told):
    place, gone = told.places, told.head(HI, taken(0))
    count = told.committed(LO, written(0))
    yield "fewer items than were taken", {count: gone - 1}
    yield "more taken than written", {count: told.words[count], told.committed(HI, taken(0)): told.words[count] + 1}
    yield "more items than places", {count: gone + 3}
    yield "an item of 33 bits", {place.ring(0, gone): 1 << 32}
    yield "the last item of 33 bits", {place.ring(0, gone + 1): 1 << 32, count: gone + 2}


def damages_of_logs(told):
    place, stamp = told.places, told.words[told.places.log(HI, 1)] >> 32
    yield "an output of no commit", {place.log(LO, 0): 5}
    yield "an output of a later commit", {place.log(LO, 0): told.head(LO, STAMP) + 1 << 32}
    yield "outputs in another order", {place.log(HI, 1): stamp - 1 << 32}
    yield "an output of another thread's commit", {place.log(HI, 0): told.words[place.log(LO, 0)]}


def damages_of_queues(told):
    place, form = told.places, told.form
    first, event = slot(told, LO, 0)
    second, later = slot(told, LO, 1)
    free, _ = slot(told, HI, 3)
    yield "another thread's event", {first: form.full(event.position, 1, event.number, event.value)}
    yield "an event of no source", {first: form.full(event.position, 3, event.number, event.value)}
    yield "an event of a turn later", {first: form.full(event.position + 2, event.source, event.number, event.value)}
    yield "an event behind a free slot", {second: told.words[second], first: form.empty(event.position)}
    yield "a free slot of a turn later", {free: form.empty(told.published(HI) + 4)}
    yield "a free slot with a value", {free: told.words[free] | 1}
    yield "a slot of nothing", {second: 0}
    yield "a tail beyond the published events", {place.tail(LO): told.published(LO) + 1}
    yield "a tail two behind", {place.tail(LO): told.published(LO) - 2}
    yield "the greatest tail", {place.tail(HI): END}
    yield "a finished event and a chain", {told.committed(LO, NEXT): told.head(LO, NEXT), told.committed(LO, FINISHED): event.position + 1}
    both = {told.committed(HI, FINISHED): told.head(HI, FINISHED), told.committed(LO, FINISHED): event.position + 1, told.committed(LO, NEXT): 0}
    yield "two finished events", both
    yield "a chain of the second event", {told.committed(LO, ORIGIN): origin_of_source(later.source, later.number), told.committed(LO, VALUE): later.value}


def damages_of_positions(told):
    """The first position whose slot's word doesn't fit, in a queue that holds nothing."""
    released, place = (1 << 21) - 2, told.places
    free = {place.slot(LO, position): told.form.empty(position) for position in (released, released + 1)}
    beyond = {place.slot(HI, position): told.form.empty(position) for position in range((1 << 21) - 2, 1 << 21)}
    yield "a position of 22 bits", {
        place.slot(HI, 1 << 21): 1 << 21 + told.form.position_at & END,
        **{place.slot(HI, (1 << 21) + 1): 0, **beyond, **free},
        told.committed(HI, FINISHED): released,
        place.tail(HI): released,
        told.committed(LO, NEXT): 0,
        told.committed(LO, FINISHED): released,
        place.tail(LO): released,
    }


def damages_of_sources(told):
    place = told.places
    src, ack = place.src(0), place.ack(0)
    (first, event), (second, later) = slot(told, HI, 0), slot(told, HI, 1)
    accepted, reading = told.words[src] & 0xFFFFFFFF, told.words[src] >> 32
    yield "more readings accepted than settled", {src: reading << 32 | reading + 1}
    yield "fewer events accepted than held", {first: told.words[first], place.src(1): told.words[place.src(1)] >> 32 << 32}
    yield "another count", {second: TODAY.full(later.position, 1, later.number + 1, later.value)}
    yield "a count of the event to come", {first: told.words[first], second: TODAY.full(later.position, 1, 3, later.value)}
    yield "an acknowledged event that isn't finished", {ack: told.words[ack] + 1}
    yield "no acknowledgement", {ack: 0}
    yield "an acknowledged event to come", {slot(told, LO, 0)[0]: told.words[slot(told, LO, 0)[0]], ack: (accepted + 1) % 64}
    yield "two acknowledged events, one of which is finished", {place.ack(1): event.number + 2}
    yield "an acknowledgement of 64", {place.ack(2): 64}


def damages_of_earlier_sources(told):
    place = told.places
    (_, event), (second, later) = slot(told, HI, 0), slot(told, HI, 1)
    yield "readings in another order", {second: EARLIER.full(later.position, 1, event.number, later.value)}
    yield "an acknowledged event that isn't finished", {place.ack(0): slot(told, LO, 0)[1].number + 1}
    yield "two acknowledged events, one of which is finished", {place.ack(1): event.number + 2}
    yield "the greatest acknowledgement", {place.ack(2): END}


COMMON = [damages_of_code, damages_of_chains, damages_of_blocks, damages_of_pipes, damages_of_logs, damages_of_queues, damages_of_positions]


def rows_of_checks():
    """Each check failed alone, and together with the last one of all: the earlier one is told."""
    board = pair_behind("Commit hi", 1)
    header = lines(PAIR_GOES_ON) + 1
    for form, words, own in ((TODAY, board.words, damages_of_sources), (EARLIER, earlier_words(board), damages_of_earlier_sources)):
        told = Told(board.program, words, form)
        damages = [damage for damages in [*COMMON, own] for damage in damages(told)]
        for name, changes in damages:
            line = header + 1 + next(iter(changes)) // 8
            row = f"a_check_names_the_first_word_at_which_it_fails {NAMES[form]} {name}"
            yield refused(row, PAIR_GOES_ON + image_text(with_words(told, changes), form), line, "NotStanding")
            both = image_text(with_words(told, damages[-1][1] | changes), form)
            yield refused(f"{row}, and the last", PAIR_GOES_ON + both, line, "NotStanding")
        yield case(f"an_image_of_two_threads_is_gone_on_with {NAMES[form]}", PAIR_GOES_ON + image_text(words, form), "--journal", "--image")
