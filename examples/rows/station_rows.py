"""Rows of stations. Each is a text of many jobs. What their boards print is worked out by the plain reading, each by itself; so is the first fault of the lines
that begin a board, of the images and of the turns of all boards together. It is written down here too, as are the faults in front of an image."""

from claim_rows import EXAMPLES, JOBS_WITH_IMAGES
from image_rows import SUM, Case
from plain.image import Fault
from plain.station import BOARDS, TURNS, answer_of_station

FIRST = SUM + "S0 7\n[power]\ncharge 0 S0*9 K*200\n"
FIRST_RUN = "1 a 7\nthread a served 1 trapped 0 expired 0 held 0\nsource S0 next 1 pushed 1 refused 0\nclock 0 commits 1 charges 1\n"
QUIET = SUM + "[power]\ncharge 0 K*50\n"
QUIET_RUN = "thread a served 0 trapped 0 expired 0 held 0\nsource S0 next 0 pushed 0 refused 0\nclock 0 commits 0 charges 1\n"
LINES = QUIET.count("\n") + 1  # of such a board, with its header
GONE_ON = JOBS_WITH_IMAGES["of a sum"]
BAD = QUIET.replace("ev r3", "ev r16")  # in its seventh line
BEFORE, HEADER, WORDS = GONE_ON.partition("[image2]\n")
# Examples that differ in their parts and have short runs.
SHORT = ["first", "threshold", "traps", "cut_before_commit", "published_once", "full_queue", "chain", "preemption"]
SHORT += ["pipe", "one_shot", "expiry", "two_sources", "watchdog", "journal", "earlier_image", "turns_left"]


def station(*jobs):
    return "".join(f"[board]\n{job}" for job in jobs)


def quiet(charges):
    """A board on which nothing happens: its kernel finds nothing to serve, its clock stands still."""
    return SUM + f"[power]\n{charges}\n"


def runs(*texts):
    return "".join(f"board {number}\n{text}" for number, text in enumerate(texts))


def case(name, text, wanted=None, flags=()):
    """What is wanted, where it is given here, has to be what is worked out."""
    found = answer_of_station(text, flags)
    if isinstance(found, Fault) or wanted not in (None, found):
        raise AssertionError(f"{name}: {found} worked out")
    return Case(name, ["station", *flags], text, found)


def refused(name, text, line, cause):
    """A text whose first fault is one that the plain reading finds."""
    if answer_of_station(text) != Fault(line, cause):
        raise AssertionError(f"{name}: {answer_of_station(text)} worked out")
    return judged(name, text, line, cause)


def judged(name, text, line, cause):
    return Case(name, ["station"], text, Fault(line, cause))


def rows_of_runs():
    yield case("each_board_has_its_number_and_its_run", station(FIRST, QUIET), runs(FIRST_RUN, QUIET_RUN))
    yield case("a_station_may_have_one_board", station(QUIET), runs(QUIET_RUN))
    readings = [FIRST.replace("S0 7", f"S0 {n}") for n in range(BOARDS)]
    yield case("boards_of_one_program_share_nothing", station(*readings), runs(*(FIRST_RUN.replace("a 7", f"a {n}") for n in range(BOARDS))))
    examples = [(EXAMPLES / f"{name}.job").read_text() for name in SHORT]
    for count in (2, BOARDS - 1, BOARDS):
        yield case(f"each_board_has_the_run_of_its_own_job {count}", station(*examples[:count]))
    for flags in (["--json"], ["--journal"], ["--json", "--journal"]):
        yield case(f"the_flags_hold_for_each_board {' '.join(flags)}", station(*examples[:3], QUIET), flags=flags)
    yield case("each_board_may_have_an_image", station(QUIET, *JOBS_WITH_IMAGES.values(), FIRST))
    yield case("the_text_has_the_order_of_the_jobs", station(quiet("charge 0 K*50000"), QUIET, FIRST), runs(QUIET_RUN, QUIET_RUN, FIRST_RUN))


def rows_of_headers():
    """The lines that begin a board are judged behind all bytes and before all jobs."""
    name = "a_station_begins_with_a_board"
    yield refused(f"{name}, not with nothing", "", 1, "Missing")
    yield refused(f"{name}, not with a comment", "# [board]\n\n#", 4, "Missing")
    yield refused(f"{name}, not with a program", "\n" + FIRST + station(QUIET), 2, "BadSection")
    yield refused(f"{name}, not with another word", "[boards]\n" + FIRST, 1, "BadSection")
    yield refused(f"{name}, not with a word joined", "[board]x\n" + FIRST, 1, "BadSection")
    yield case(f"{name}, wherever its line stands", "# one\n\n \t[board] # the first\r\n" + QUIET + "[board]" + "\n" * 9 + QUIET[:-1], runs(QUIET_RUN, QUIET_RUN))
    full, last = station(*[QUIET] * BOARDS), LINES * (BOARDS - 1) + 1
    name = "a_station_has_at_most_16_boards"
    yield case(name, full, runs(*[QUIET_RUN] * BOARDS))
    yield refused(f"{name}, not 17", full + station(QUIET), last + LINES, "OverLimit")
    yield refused(f"{name}, and the 17th has a fault", full + "[board]\n[program]\nfly\n", last + LINES, "OverLimit")
    yield refused(f"{name}, and the 17th has a further word", full + "[board] x\n", last + LINES, "OverLimit")
    yield refused(f"{name}, and the 16th has a further word", station(*[QUIET] * (BOARDS - 1)) + "[board] x\n" + station(QUIET), last, "UnknownWord")
    yield refused(f"{name}, and the first has a fault", full.replace("queue 2", "queue x", 1) + station(QUIET), last + LINES, "OverLimit")
    yield judged(f"{name}, and a byte is bad behind them", full + station(QUIET) + "#\x7f", last + 2 * LINES, "BadByte")
    yield judged("a_bad_byte_is_told_before_all_else", "[program]\n[board] x\n#\x7f\n", 3, "BadByte")
    yield refused("a_header_has_no_further_word", station(QUIET) + "[board] [program]\n", LINES + 1, "UnknownWord")


def rows_of_jobs():
    """A fault of a job is told at its line of the whole text; the first job that has one tells it."""
    name = "a_job_ends_with_the_next_board"
    yield judged(f"{name} or the text", station(FIRST[: FIRST.index("charge")]), 17, "Missing")
    yield judged(f"{name}, without a charge", station(SUM + "[power]\n", QUIET), LINES, "Missing")
    yield judged(f"{name}, without anything", station("", QUIET), 2, "Missing")
    yield judged(f"{name}, in an open task", station(QUIET, SUM[: SUM.index("done")], QUIET), LINES + 12, "Missing")
    yield judged(f"{name}, in the text's last line", station(QUIET) + "[board]", LINES + 2, "Missing")
    for header in ("[claim]", "[radio]", "[sensors]", "[image3]"):
        yield judged(f"a_board_has_a_job_alone {header}", station(QUIET, f"{QUIET}{header}\n", QUIET), 2 * LINES + 1, "BadSection")
    name = "the_first_job_with_a_fault_tells_it"
    for board in range(BOARDS):
        jobs = [QUIET] * board + [BAD] + [QUIET.replace("thread a", "thread 1", 1)] * (BOARDS - 1 - board)
        yield judged(f"{name} {board}", station(*jobs), board * LINES + 8, "UnknownWord")


def rows_of_images():
    """One board's image is at fault: each fault of one, and each board. The first board that has one tells it."""
    name, at = "a_fault_of_one_image_stops_the_station", LINES + 1 + BEFORE.count("\n") + 1  # the header of the second board's image
    faults = [
        ("a further header", f"{GONE_ON}[image2]\n", at + WORDS.count("\n") + 1, "BadSection"),
        ("a further word", f"{BEFORE}[image2] x\n{WORDS}", at, "UnknownWord"),
        ("a word of 15 digits", f"{BEFORE}{HEADER}{WORDS[1:]}", at + 1, "BadWord"),
        ("a word less", f"{BEFORE}{HEADER}{WORDS[16:]}", at, "WrongShape"),
        ("a word more", f"{GONE_ON}{WORDS[:16]}\n", at, "WrongShape"),
        ("another program", f"{BEFORE}{HEADER}{WORDS.replace('101', '201', 1)}", at + 1, "NotStanding"),
        ("no room for its readings", GONE_ON.replace("S0 5", "S0" + " 5" * 65535), at, "Worn"),
    ]
    for fault, job, line, cause in faults:
        yield refused(f"{name} {fault}", station(QUIET, job, QUIET), line, cause)
        yield refused(f"{name} {fault}, and the next one has one", station(QUIET, job, f"{BEFORE}[image2] x\n"), line, cause)
        yield judged(f"{name} {fault}, and the next job has one", station(QUIET, job, BAD), line, cause)
        yield judged(f"{name} {fault}, and the job before has one", station(BAD, job), 8, "UnknownWord")
    yield case("each_of_16_boards_may_have_an_image", station(*[GONE_ON] * BOARDS))
    for board in range(BOARDS):
        jobs = [GONE_ON] * board + [f"{BEFORE}{HEADER}12\n{WORDS}"] + [GONE_ON] * (BOARDS - 1 - board)
        yield refused(f"{name} {board}", station(*jobs), board * (GONE_ON.count("\n") + 1) + at - LINES + 1, "BadWord")


def rows_of_turns():
    """All boards together list at most 4,194,304 turns, which is judged last."""
    name, each = "boards_list_at_most_4194304_turns_together", f"charge 0 K*{TURNS // BOARDS}"
    full = station(*[quiet(each)] * BOARDS)
    yield Case(name, ["station"], full, runs(*[QUIET_RUN] * BOARDS))
    last = LINES * BOARDS
    yield refused(f"{name}, the last one a turn more", f"{full[:-1]} T\n", last, "OverLimit")
    yield refused(f"{name}, the first one a turn more", full.replace(each, f"{each} T", 1), last, "OverLimit")
    yield refused(f"{name}, the first one all", full.replace(each, f"charge 0 K*{TURNS}", 1), 2 * LINES, "OverLimit")
    charges = f"charge 0 K*{TURNS - 2}\ncharge 0 S0\ncharge 7\ncharge 0 K*0 T\ncharge 0 T\ncharge 0 T*5"
    yield refused(f"{name}, with a later charge", station(QUIET, quiet(charges)).replace("K*50", "K*0"), 2 * LINES + 4, "OverLimit")
    yield refused(f"{name}, an image behind", station(quiet(f"charge 0 K*{TURNS}"), GONE_ON), 2 * LINES + 1, "OverLimit")
    past = full.replace(each, f"{each} T", 1)
    yield refused(f"{name}, and an image has a fault", f"{past}[image2]\n", last + 1, "WrongShape")
    yield judged(f"{name}, and a job has a fault", f"{past}charge 0 X\n", last + 1, "UnknownWord")
    yield judged(f"{name}, and so does one of them", station(quiet(f"charge 0 K*{TURNS + 1}"), BAD), LINES, "OverLimit")


def rows_of_stations():
    yield from rows_of_runs()
    yield from rows_of_headers()
    yield from rows_of_jobs()
    yield from rows_of_images()
    yield from rows_of_turns()
