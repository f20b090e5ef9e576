"""Rows of radios. Each is a job of some outputs and a script: a night of good radio, and what is left of it where packets are lost, come twice or in another
order, and where node and base lose their power. What each prints is worked out by the plain reading."""

import random

from claim_rows import EXAMPLES, JOBS_WITH_IMAGES
from image_rows import SUM, Case
from plain.image import Fault
from plain.radio import LINES, NUMBER, answer_of_radio

SIX = SUM + "S0 1 2 3 4 5 6\n[power]\ncharge 0 S0*9 K*90" + " S0*5 K*90" * 5 + "\n"  # a job of six outputs
JOB_LINES = SIX.count("\n")
TWO = SUM.replace("source a\n", "source a\nsource a\n") + "S0 7\nS1 9\n[power]\ncharge 0 S0*6 S1*7 S0*7 S1*2 K*400\n"  # two sources race


def case_of(name, text, wanted=None):
    """A row of a text with a script; what is wanted, where it is given here, has to be what is worked out."""
    found = answer_of_radio(text)
    if wanted not in (None, found):
        raise AssertionError(f"{name}: {found} worked out")
    return Case(name, ["radio"], text, found)


def case(name, job, script, wanted=None):
    """The script is given as its lines."""
    return case_of(name, job + "".join(f"{line}\n" for line in ["[radio]", *script]), wanted)


def refused(name, text, line, cause):
    return Case(name, ["radio"], text, Fault(line, cause))


def rows_of_examples():
    for path in sorted(EXAMPLES.glob("*.words")):
        if path.read_text().split() == ["radio"]:
            job = path.with_suffix(".job")
            yield case_of(f"an_example {job.stem}", job.read_text(), path.with_suffix(".out").read_text())


def rows_worked_out_by_hand():
    script = "grow 2,send,send,tobase 1,tobase 0,save,tobase 1,basecut,tobase 1,nodecut,tonode 2,rewind,send,tobase 3,save".split(",")
    yield case("a_base_saves_in_order_what_comes_out_of_order", TWO, script, "1 a 9\n2 a 16\nbase 2 fresh 0 acked 1 sent 3 air 5\n")
    yield case("nothing_is_sent_that_has_not_grown", TWO, ["send"], "base 0 fresh 0 acked 0 sent 0 air 0\n")
    yield case("a_script_may_be_empty", TWO, [], "base 0 fresh 0 acked 0 sent 0 air 0\n")
    yield case("a_job_may_have_no_outputs", SUM + "[power]\ncharge 0\n", ["grow 1", "send", "save", "tonode 0"], "base 0 fresh 0 acked 0 sent 0 air 1\n")


# All six outputs are sent, come to the base, and are saved by two and two; each Ack comes to the node.
GOOD = ["grow 6", *["send"] * 6]
GOOD += ["tobase 0", "tobase 1", "save", "tobase 2", "tobase 3", "save", "tobase 4", "tobase 5", "save", "tonode 6", "tonode 7", "tonode 8"]
SAVED = "1 a 1\n2 a 3\n3 a 6\n4 a 10\n5 a 15\n6 a 21\n"


def changes_of(script):
    """Each line of a script left out, repeated, exchanged with the next one, and with something that happens before it."""
    for n, line in enumerate(script):
        yield f"{line} ({n}) is lost", script[:n] + script[n + 1 :]
        yield f"{line} ({n}) comes twice", script[: n + 1] + script[n:]
        yield f"{line} ({n}) comes late", script[:n] + [*script[n + 1 : n + 2], line] + script[n + 2 :]
        yield f"{line} ({n}) comes last", script[:n] + script[n + 1 :] + [line]
        for event in ("basecut", "nodecut", "rewind", "save", "send", "grow 1"):
            yield f"{event} before {line} ({n})", script[:n] + [event] + script[n:]


def rows_of_changes():
    yield case("a_night_of_good_radio", SIX, GOOD, f"{SAVED}base 6 fresh 0 acked 6 sent 6 air 9\n")
    again = ["rewind", *["send"] * 6, *(f"tobase {number}" for number in range(6, 20)), "save", *(f"tonode {number}" for number in range(20))]
    for name, script in changes_of(GOOD):
        yield case(f"a_night_of_bad_radio {name}", SIX, script)
        yield case(f"a_night_of_bad_radio {name}, and all is sent again", SIX, script + again)


def event_of_chance(chance):
    word = chance.choice(("grow", "send", "send", "send", "tobase", "tobase", "tobase", "tobase", "tonode", "save", "rewind", "nodecut", "basecut"))
    return f"{word} {chance.randrange(4 if word == 'grow' else 40)}" if word in ("grow", "tobase", "tonode") else word


def rows_of_chance():
    """Scripts of any events, the same ones each time."""
    for seed in range(200):
        chance = random.Random(seed)
        yield case(f"a_script_of_any_events {seed}", SIX, [event_of_chance(chance) for _ in range(120)])


def rows_of_packets():
    """A packet is one that was sent, and is taken by the side that it is for."""
    script = ["grow 6", "send", "save", "send"]  # packet 0 is an output, 1 an Ack, 2 an output, and there is no other one
    for number in (0, 1, 2, 3, 4194303, 4194304):
        yield case(f"a_packet_has_the_number_of_its_sending tobase {number}", SIX, [*script, f"tobase {number}", "save"])
        yield case(f"a_packet_has_the_number_of_its_sending tonode {number}", SIX, [*script, f"tonode {number}", "rewind", "send"])
    for count in (0, 1, 5, 6, 7, 4194304):
        yield case(f"no_more_outputs_grow_than_there_are {count}", SIX, [f"grow {count}", *["send"] * 9])
        yield case(f"no_more_outputs_grow_than_there_are {count} and {count}", SIX, [f"grow {count}"] * 2 + ["send"] * 9)
    yield case("an_old_ack_lowers_nothing", SIX, [*GOOD, "tonode 6", "rewind", "send"], f"{SAVED}base 6 fresh 0 acked 6 sent 6 air 9\n")
    yield case("an_ack_moves_a_cursor_that_is_behind", SIX, [*GOOD[:-3], "nodecut", "tonode 7", "send"])
    yield case("outputs_of_an_image_are_outputs", JOBS_WITH_IMAGES["of a sum"], ["grow 9", "send", "send", "send", "tobase 0", "tobase 1", "save"])


# A line that has a fault, and its cause.
FAULTS = [
    ("fly", "UnknownWord"),
    ("Send", "UnknownWord"),
    ("send 1", "UnknownWord"),
    ("save x", "UnknownWord"),
    ("grow", "Missing"),
    ("tobase # 1", "Missing"),
    ("tonode x", "BadNumber"),
    ("tonode -1", "BadNumber"),
    ("tonode 0x1", "BadNumber"),
    ("tobase 00000000001", "BadNumber"),
    ("grow 4194305", "OverLimit"),
    ("grow 9999999999", "OverLimit"),
    ("grow 1 2", "UnknownWord"),
    ("grow x 2", "BadNumber"),
    ("grow 4194305 2", "OverLimit"),
    ("fly 4194305", "UnknownWord"),
    ("[radio]", "UnknownWord"),
    ("[claim]", "UnknownWord"),
    ("[", "UnknownWord"),
    ("grow\v1", "BadByte"),
]


def rows_of_faults():
    head = SIX + "[radio]\n"
    name = "a_fault_of_a_script_is_told_with_its_line"
    for line, cause in FAULTS:
        yield refused(f"{name} {line!r}", f"{head}send\n\n# nothing\n{line}\nfly\n", JOB_LINES + 5, cause)
    for line in ("grow 0000000001", "  grow\t1 # 2", "grow 1\r", f"grow {NUMBER}"):
        yield case(f"a_line_of_a_script_may_be_spelled {line!r}", SIX, [line, "send"])
    yield refused(f"{name} isn't there", SIX, JOB_LINES + 1, "Missing")
    yield refused(f"{name} isn't there, without a last line feed", SIX[:-1], JOB_LINES + 1, "Missing")
    yield refused(f"{name} isn't there, and the job has a fault", SIX + "charge x\n", JOB_LINES + 1, "BadNumber")
    yield refused(f"{name} stands in a comment", SIX + "# [radio]\n", JOB_LINES + 2, "Missing")
    yield refused(f"{name} has a further word", SIX + "[radio] x\n", JOB_LINES + 1, "UnknownWord")
    yield refused(f"{name} before the first charge", SIX.replace("charge", "[radio]\ncharge"), JOB_LINES, "Missing")
    yield refused(f"{name} is that of a claim", SIX + "[claim]\nsend\n", JOB_LINES + 1, "BadSection")
    yield refused(f"{name} behind a fault of the job", SIX.replace("S0 1", "S1 1") + "[radio]\nfly\n", 14, "UnknownWord")
    yield refused(f"{name} behind a fault of the job, with a byte", SIX.replace("S0 1", "S1 1") + "[radio]\nfly\x7f\n", JOB_LINES + 2, "BadByte")
    for mode in ("run", "sweep", "print", "audit"):
        yield Case(f"{name} with {mode}", [mode], head + "send\n", Fault(JOB_LINES + 1, "BadSection"))
    job = JOBS_WITH_IMAGES["of a sum"]
    header = job[: job.index("[image2]")].count("\n") + 1
    yield refused(f"{name} behind a bad word of an image", job.replace("[image2]\n", "[image2]\n12\n") + "[radio]\nfly\n", header + 1, "BadWord")
    yield refused(f"{name} behind an image", job + "[radio]\nfly\n", job.count("\n") + 2, "UnknownWord")


def rows_of_limits():
    """A script has at most 65,536 lines with words."""
    full = ["grow 6", "send", "tobase 0"] + ["save"] * (LINES - 3)
    name = "a_script_has_at_most_65536_lines"
    yield case(name, SIX, full, f"1 a 1\nbase 1 fresh 0 acked 0 sent 1 air {LINES - 2}\n")
    yield case(f"{name} besides those without words", SIX, [*full, "", "# nothing"])
    yield case(f"{name} and a further one", SIX, [*full, "", "save"], Fault(JOB_LINES + 1 + LINES + 2, "OverLimit"))
    yield case(f"{name} and one that is unknown", SIX, [*full, "fly"], Fault(JOB_LINES + 1 + LINES + 1, "UnknownWord"))
    yield case(f"{name} and one without its number", SIX, [*full, "grow"], Fault(JOB_LINES + 1 + LINES + 1, "OverLimit"))


def rows_of_radios():
    yield from rows_of_examples()
    yield from rows_worked_out_by_hand()
    yield from rows_of_changes()
    yield from rows_of_chance()
    yield from rows_of_packets()
    yield from rows_of_faults()
    yield from rows_of_limits()
