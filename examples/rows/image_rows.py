"""Rows of images. What each should print, or how it is refused, is worked out by the plain reading in plain/, which knows nothing of the program;
where a check fails, the word that is named is written down here too, by its place. Row names tell the rule that they show."""

from typing import NamedTuple

from plain.earlier import earlier_words
from plain.image import Fault, answer, prepared, start
from plain.job import read_job
from plain.told import image_text
from plain.words import EARLIER, TODAY, first_words


class Case(NamedTuple):
    name: str
    words: list
    job: str
    answer: str | Fault


def case(name, job, *flags):
    """A row of `run` whose answer is worked out."""
    return Case(name, ["run", *flags], job, answer(read_job(job), flags))


def refused(name, job, line, cause, mode="run"):
    """A row that is refused, with the line and the cause as they are given here, which have to be those that are worked out."""
    if start(read_job(job)) != Fault(line, cause):
        raise AssertionError(f"{name}: {start(read_job(job))} worked out")
    return Case(name, [mode], job, Fault(line, cause))


def accepted(name, job):
    """A row whose image has to be taken, with all that it prints."""
    made = case(name, job, "--journal", "--image")
    if isinstance(made.answer, Fault):
        raise AssertionError(f"{name}: {made.answer}")
    return made


def board_after(job):
    job = read_job(job)
    board = prepared(job, first_words(job.program))
    board.run(job.charges)
    return board


def lines(text):
    return text.count("\n")


# One thread that adds up what it is given.
SUM = """[program]
thread a priority 1 queue 2 state 1 log 8
source a
task sum thread a limit 100
li r1 0
ld r2 r1
ev r3
add r2 r2 r3
st r2 r1
out r2
done
end
[sensors]
"""
FULL_QUEUE = SUM + "S0 7 8 9\n[power]\ncharge 0 S0*14 K*77 S0*3\n"  # its third reading is refused, its first event finished and not released
GOES_ON = SUM + "S0 5\n[power]\ncharge 0 K*600 S0*9 K*600\n"
SUMMED = """1 a 7
2 a 15
3 a 20
thread a served 3 trapped 0 expired 0 held 0
source S0 next 4 pushed 1 refused 0
clock 0 commits 3 charges 1
"""
FIRST_IMAGE = """[image2]
0000000000000101 0000000000001216 0000000000000312 0000000000032203 0000000000001217 0000000000000218 000000000000001d 0000000000000000
"""
LAST_LINE = "0000000000000000 0000000000000000 0000040000000000 0000000000000000 0000000000000000 0000000000000000\n"


def rows_of_sum():
    """The image of a board on which nothing happened; that of a full queue, which is gone on with, damaged, worn, and no image at all."""
    nothing = case("an_image_is_printed_behind_the_rest", SUM + "[power]\ncharge 0 K*50\n", "--image")
    image = nothing.answer[nothing.answer.index("[image2]") :]
    if not (image.startswith(FIRST_IMAGE) and image.endswith(LAST_LINE) and lines(image) == 18):
        raise AssertionError(nothing.name)
    yield nothing
    yield case("an_image_is_printed_behind_the_journal", FULL_QUEUE, "--image", "--journal")
    board = board_after(FULL_QUEUE)
    for form, words in ((TODAY, board.words), (EARLIER, earlier_words(board))):
        image, name = image_text(words, form), "today" if form is TODAY else "earlier"
        gone_on = case(f"a_run_goes_on_from_an_image {name}", GOES_ON + image)
        if gone_on.answer != SUMMED:
            raise AssertionError(gone_on.name)
        yield gone_on
        yield from rows_of_sum_refused(name, words, form)


def rows_of_sum_refused(name, words, form):
    header = lines(GOES_ON) + 1
    for address, word, below in ((7, 0x80, 1), (128, 3, 17)):
        changed = image_text(words[:address] + [word] + words[address + 1 :], form)
        yield refused(f"words_that_are_no_image_are_refused_at_the_one_that_is_named {name} {address}", GOES_ON + changed, header + below, "NotStanding")
    for number in (65532, 65533):
        listed = SUM + "S0" + " 5" * number + "\n[power]\ncharge 0 S0*9\n" + image_text(words, form)
        row = f"readings_have_to_fit_behind_those_of_the_image {name} {number}"
        yield case(row, listed) if number == 65532 else refused(row, listed, header, "Worn")
    for count in (0, 1, 133, 135):
        counted = image_text((words + [0])[:count], form)
        yield refused(f"an_image_has_as_many_words_as_its_board {name} {count}", GOES_ON + counted, header, "WrongShape")
    image = image_text(words, form)
    for word in ("12", "0x00000000000101", "00000000000000101", "000000000000010g", "0000000000000101,", "+000000000000101"):
        bad = GOES_ON + image.replace("0000000000000101", word, 1)
        yield refused(f"a_word_of_an_image_has_16_hexadecimal_digits {name} {word}", bad, header + 1, "BadWord")


def rows_of_text():
    """How the section may be written, and which fault is named where there are several."""
    words = board_after(FULL_QUEUE).words
    damaged_words = words[:7] + [0x80] + words[8:]
    image, header = image_text(words), lines(GOES_ON) + 1
    width = {width: image_text(words, width=width) for width in (1, 7, 200)}
    forms = {
        "upper": image.upper().replace("[IMAGE2]", "[image2]"),
        "comments": image.replace("\n", " # of a board\n\n#\n").replace("[", "  \t["),
        "carriage_returns": image.replace("\n", "\r\n").replace(" ", "  "),
        "no_last_line_feed": image[:-1],
        **{f"width_{n}": text for n, text in width.items()},
    }
    for name, text in forms.items():
        yield case(f"words_of_an_image_stand_in_lines_of_any_length {name}", GOES_ON + text, "--image")
    for n in width:
        named = image_text(damaged_words, width=n)
        yield refused(f"the_line_that_is_named_is_that_of_the_word width_{n}", GOES_ON + named, header + 1 + 7 // n, "NotStanding")
    damaged = image_text(damaged_words)
    spread = damaged.replace("\n", "\n\n# nothing\n")
    yield refused("the_line_that_is_named_is_that_of_the_word spread", GOES_ON + spread, header + 3, "NotStanding")
    last = header + lines(image) - 1
    order = "faults_of_an_image_are_told_in_their_order"
    for further in ("[image2]", "[image1]", "[power]", "[claim]", "[image2] 12"):
        yield refused(f"{order} a further header {further}", GOES_ON + damaged + f"12\n{further}\n", last + 2, "BadSection")
    yield refused(f"{order} a word of the header before a further one", GOES_ON + image.replace("]", "] x", 1) + "[power]\n", header, "UnknownWord")
    yield refused(f"{order} a bad word before a wrong shape", GOES_ON + image + "12\n", last + 1, "BadWord")
    yield refused(f"{order} the first bad word", GOES_ON + damaged.replace("\n", "\n13\n", 1) + "12\n", header + 1, "BadWord")
    yield refused(f"{order} a wrong shape before words that are no image", GOES_ON + damaged + "0000000000000000\n", header, "WrongShape")
    worn = SUM + "S0" + " 5" * 65533 + "\n[power]\ncharge 0 S0*9\n"
    yield refused(f"{order} no image before a worn one", worn + damaged, header + 1, "NotStanding")
    yield refused(f"{order} a worn one", worn + image, header, "Worn")


def rows_of_headers():
    """Headers that stand elsewhere: faults of the sections before, which no reading of an image judges."""
    image, name = image_text(board_after(FULL_QUEUE).words), "the_header_of_an_image_ends_the_charges"
    power = lines(SUM) + 2
    faults = [
        ("no_charge", SUM + "S0 5\n[power]\n" + image, power + 1, "Missing"),
        ("no_charge_and_a_word_more", SUM + "S0 5\n[power]\n" + image.replace("]", "] x", 1), power + 1, "Missing"),
        ("in_the_readings", SUM + "S0 5\n" + image, power, "BadSection"),
        ("in_the_program", SUM.replace("[sensors]\n", image), lines(SUM), "BadSection"),
        ("in_a_task", SUM.replace("end\n[sensors]\n", image), lines(SUM) - 1, "Missing"),
        ("another_number", GOES_ON + image.replace("2", "3", 1), lines(GOES_ON) + 1, "BadSection"),
        ("a_word_joined", GOES_ON + image.replace("]", "]x", 1), lines(GOES_ON) + 1, "BadSection"),
        ("a_charge_that_is_none", GOES_ON + "charge x\n" + image, lines(GOES_ON) + 1, "BadNumber"),
        ("a_byte_in_the_image", GOES_ON + image.replace("0", "\x7f", 1), lines(GOES_ON) + 2, "BadByte"),
    ]
    for fault, job, line, cause in faults:
        yield Case(f"{name} {fault}", ["run"], job, Fault(line, cause))
        yield Case(f"{name} {fault} print", ["print"], job, Fault(line, cause))
    program = SUM[: SUM.index("[sensors]")]
    yield Case("the_image_of_a_job_is_judged_and_not_printed", ["print"], GOES_ON + image, program)
    yield refused("the_image_of_a_job_is_judged_and_not_printed refused", GOES_ON + image + "12\n", lines(GOES_ON + image) + 1, "BadWord", "print")


def rows_of_images():
    for rows in (rows_of_sum, rows_of_text, rows_of_headers):
        yield from rows()
