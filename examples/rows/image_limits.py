"""Rows of images with other words than a run left: numbers at both sides of their limits, chains, a bit changed in each word."""

from image_pair import END, HI, LO, NAMES, PAIR_GOES_ON, pair_behind, slot, with_words
from image_rows import FULL_QUEUE, GOES_ON, accepted, board_after, case, lines, refused
from plain.earlier import earlier_words
from plain.image import Fault, answer
from plain.job import read_job
from plain.told import Told, image_text
from plain.words import EARLIER, FINISHED, FIRST, NEXT, ORIGIN, OUTPUTS, SERVED, STAMP, TODAY, VALUE, due, period, taken, written


def rows_of_limits():
    """Words at their limits that are still those of an image, and chains of an item and of a timer."""
    board = pair_behind("Commit hi", 1)
    for form, words in ((TODAY, board.words), (EARLIER, earlier_words(board))):
        told = Told(board.program, words, form)
        gone = told.head(HI, taken(0))
        count = told.head(HI, OUTPUTS)
        stamp = told.words[told.places.log(HI, count - 2)] >> 32
        for name, changes in (
            ("a timer at the last tick", {told.committed(LO, due(1)): 1 << 48}),
            ("the greatest period", {told.committed(LO, period(1)): (1 << 32) - 1}),
            ("the greatest state number", {told.committed(LO, 56): (1 << 32) - 1}),
            ("a chain that begins now", {told.committed(LO, FIRST): told.words[told.places.clock]}),
            ("an idle thread's old event", {told.committed(HI, ORIGIN): END, told.committed(HI, VALUE): END}),
            ("as many items as places", {told.committed(LO, written(0)): gone + 2, told.places.ring(0, gone + 1): (1 << 32) - 1}),
            ("no item", {told.committed(LO, written(0)): gone, told.places.ring(0, gone): END}),
            ("outputs of one commit", {told.places.log(HI, count - 1): stamp << 32}),
            ("an output of the last commit", {told.places.log(HI, count - 1): told.head(HI, STAMP) << 32}),
            ("an output behind the last one", {told.places.log(HI, count): END}),
            ("a tail one behind", {told.places.tail(HI): told.published(HI) - 1}),
            ("an acknowledged event that is finished", {told.places.ack(1): slot(told, HI, 0)[1].number + 1}),
            ("another copy of a page", {told.places.page_word(LO, STAMP, ~words[told.places.commit(LO)]): END}),
        ):
            row = f"words_at_their_limits_are_an_image {NAMES[form]} {name}"
            yield accepted(row, PAIR_GOES_ON + image_text(with_words(told, changes), form))


def rows_of_chains():
    """The origin and the value of a chain of an item and of a timer: those that it may have, and those beside them."""
    header = lines(PAIR_GOES_ON) + 1
    for kind, behind in ((2, ("Commit lo", 6)), (3, ("Commit lo", 8))):
        board = pair_behind(*behind)
        for form, words in ((TODAY, board.words), (EARLIER, earlier_words(board))):
            told = Told(board.program, words, form)
            origin, value = told.committed(LO, ORIGIN), told.committed(LO, VALUE)
            if words[origin] >> 56 != kind or told.head(LO, NEXT) == 0:
                raise AssertionError(behind)
            row = f"a_chain_serves_an_event_that_its_thread_may_have {NAMES[form]} {kind}"
            yield accepted(row, PAIR_GOES_ON + image_text(words, form))
            beside = [(origin, words[origin] - 1), (origin, words[origin] + 1), (origin, words[origin] ^ 1 << 40), (value, words[value] + 1)]
            for address, word in [*beside, (value, (1 << 32) - 1), (value, 1 << 32)]:
                yield beside_an_image(f"{row} {address - origin} {word:x}", told, address, word, header)


def beside_an_image(name, told, address, word, header):
    """A row with one word changed: it is refused there, or taken."""
    job = PAIR_GOES_ON + image_text(with_words(told, {address: word}), told.form)
    made = answer(read_job(job), ("--journal", "--image"))
    return refused(name, job, made.line, made.cause) if isinstance(made, Fault) else accepted(name, job)


def rows_of_bits():
    """One bit changed in each word of an image."""
    for job, board in ((GOES_ON, board_after(FULL_QUEUE)), (PAIR_GOES_ON, pair_behind("Commit hi", 1))):
        for form, words in ((TODAY, board.words), (EARLIER, earlier_words(board))):
            told = Told(board.program, words, form)
            for address, word in enumerate(words):
                bit = (5 * address + address // 7) % 64
                changed = image_text(with_words(told, {address: word ^ 1 << bit}), form)
                yield case(f"a_bit_of_an_image_is_changed {NAMES[form]} {len(words)} {address} {bit}", job + changed, "--journal", "--image")


def worn_at(told):
    """The cases in which an image is worn, by the words that lead to them: the greatest that isn't, and one more."""
    place = told.places
    for thread, name in ((LO, "lo"), (HI, "hi")):
        for word in (STAMP, SERVED, SERVED + 1, SERVED + 2):
            yield f"h{word} of {name}", {told.committed(thread, word): (1 << 31) - 1}, {told.committed(thread, word): 1 << 31}
    yield "clock", {place.clock: (1 << 46) - 1}, {place.clock: 1 << 46}
    count, gone = told.committed(LO, written(0)), told.committed(HI, taken(0))
    yield "items written", {count: (1 << 31) - 1, gone: (1 << 31) - 2}, {count: 1 << 31, gone: (1 << 31) - 1}
    yield "items taken", {count: (1 << 31) - 1, gone: (1 << 31) - 1}, {count: 1 << 31, gone: 1 << 31}
    for source, listed in enumerate((2, 1, 1)):
        yield f"next of S{source}", *(next_of(told, source, 65535 - listed + over) for over in (0, 1))
    yield "positions", *(released_of(told, 1048560 - 3 + over) for over in (0, 1))


def next_of(told, source, reading):
    """The words with another next reading in SRC."""
    src = told.places.src(source)
    one_more = 0 if told.form is EARLIER else told.source(source).next - (told.words[src] >> 32)
    return {src: reading if told.form is EARLIER else reading - one_more << 32 | told.words[src] & 0xFFFFFFFF}


def released_of(told, released):
    """The words with another number of released events in the queue of lo, which then holds nothing, so that each of its sources has lost none."""
    place, form = told.places, told.form
    changes = {place.slot(LO, position): form.empty(position) for position in (released, released + 1)}
    changes |= {told.committed(LO, NEXT): 0, told.committed(LO, FINISHED): released, place.tail(LO): released}
    if form is TODAY:
        changes |= {place.ack(source): told.source(source).accepted % 64 for source in (0, 2)}
    return changes


def rows_of_worn():
    """Both sides of each case in which an image is worn."""
    board, header = pair_behind("Commit hi", 1), lines(PAIR_GOES_ON) + 1
    for form, words in ((TODAY, board.words), (EARLIER, earlier_words(board))):
        told = Told(board.program, words, form)
        for name, still, worn in worn_at(told):
            row = f"an_image_is_worn_where_a_number_might_run_over {NAMES[form]} {name}"
            yield accepted(f"{row} not yet", PAIR_GOES_ON + image_text(with_words(told, still), form))
            yield refused(row, PAIR_GOES_ON + image_text(with_words(told, worn), form), header, "Worn")
        yield from rows_of_worn_earlier(told, header) if form is EARLIER else ()


def rows_of_worn_earlier(told, header):
    """In the earlier form the next reading is the greatest of SRC, of ACK where no event is held, and of one behind those that are held."""
    place, row = told.places, "the_next_reading_of_an_earlier_image_is_the_greatest_that_it_tells"
    nothing_held = released_of(told, told.released(LO))
    position = told.released(LO) + 1
    for over in (0, 1):
        answers = [accepted, lambda name, job: refused(name, job, header, "Worn")][over]
        acknowledged = {**nothing_held, place.ack(2): 65534 + over}
        yield answers(f"{row} ack {over}", PAIR_GOES_ON + image_text(with_words(told, acknowledged), EARLIER))
        held = {place.slot(LO, position): EARLIER.full(position, 2, 65533 + over, 5)}
        yield answers(f"{row} held {over}", PAIR_GOES_ON + image_text(with_words(told, held), EARLIER))


def rows_at_limits():
    for rows in (rows_of_limits, rows_of_chains, rows_of_bits, rows_of_worn):
        yield from rows()
