"""Rows of claims. Each is a job with what a run of it prints with its journal, or with that text changed: a line left out, repeated or exchanged with the
next one, a digit that is another, a line feed less. What is said of it is worked out by the plain reading: the never-cut kernel goes over the journal."""

import pathlib

from image_rows import SUM, Case
from plain.claim import answer_of_audit
from plain.image import Fault, answer, prepared, start
from plain.job import read_job
from plain.told import image_text

EXAMPLES = pathlib.Path(__file__).resolve().parents[1]
LIMIT = 4194304  # the bytes that a text may have
# The examples of which each line is changed; of the others some are.
SHORT = ("first", "full_queue", "journal", "published_once", "turns_left", "chain", "expiry", "two_sources")


def claim_of(job):
    """What the run of a job prints with its journal."""
    return answer(read_job(job), ["--journal"]).encode()


def case_of(name, text, wanted=None):
    """A row of a text with a claim; what is wanted, where it is given here, has to be what is worked out."""
    found = answer_of_audit(text)
    if wanted not in (None, found):
        raise AssertionError(f"{name}: {found} worked out")
    return Case(name, ["audit"], text, found)


def case(name, job, claim, wanted=None):
    return case_of(name, job.encode() + b"[claim]\n" + claim, wanted)


def refused(name, text, line, cause, mode="audit"):
    return Case(name, [mode], text, Fault(line, cause))


def examples():
    """The jobs of the examples, and what each of them prints with its journal."""
    for path in sorted([*EXAMPLES.glob("*.job"), *EXAMPLES.glob("rows/*.job")]):
        words = path.with_suffix(".words")
        is_run = not words.exists() or words.read_text().split()[0] in ("run", "sweep")
        if is_run and not path.with_suffix(".status").exists():
            job = path.read_text()
            yield path.stem, job, claim_of(job)


SUM_OF_7 = SUM + "S0 7\n[power]\ncharge 0 S0*9 K*79\n"
RIGHT = claim_of(SUM_OF_7)
JOB_LINES = SUM_OF_7.count("\n")


def gone_on(job):
    """A job of one reading more that goes on from what a run of this one leaves."""
    read = read_job(job)
    board = prepared(read, start(read))
    board.run(read.charges)
    return SUM + "S0 5\n[power]\ncharge 3 S0*9 K*200\n" + image_text(board.words)


JOBS_WITH_IMAGES = {
    "of a sum": gone_on(SUM_OF_7),
    "of an event that is finished": gone_on(SUM_OF_7.replace("K*79", "K*77")),
    "of an event that is held": gone_on(SUM_OF_7.replace("K*79", "K*70")),
}


def rows_of_examples():
    for path in sorted(EXAMPLES.glob("*.words")):
        if path.read_text().split() == ["audit"]:
            job = path.with_suffix(".job")
            yield case_of(f"an_example {job.stem}", job.read_bytes(), path.with_suffix(".out").read_text())


def rows_of_runs():
    for name, job, claim in examples():
        yield case(f"what_a_run_prints_is_right {name}", job, claim, "audit yes\n")
    for name, job in JOBS_WITH_IMAGES.items():
        yield case(f"what_a_run_that_goes_on_prints_is_right {name}", job, claim_of(job), "audit yes\n")


def changes_of(lines, places):
    """Each of these lines left out, repeated, and exchanged with the next one."""
    for n in places:
        yield f"line {n + 1} left out", lines[:n] + lines[n + 1 :]
        yield f"line {n + 1} repeated", lines[: n + 1] + lines[n:]
        if n + 1 < len(lines):
            yield f"line {n + 1} exchanged", lines[:n] + [lines[n + 1], lines[n]] + lines[n + 2 :]


def rows_of_changed_lines():
    """All lines of short texts, and some of long ones."""
    for name, job, claim in examples():
        lines = claim.splitlines(keepends=True)
        step = 1 if name in SHORT else len(lines) // 6 + 1
        for change, changed in changes_of(lines, range(0, len(lines), step)):
            yield case(f"a_claim_that_was_changed {name}, {change}", job, b"".join(changed))


def rows_of_bytes():
    """Each byte of a claim that is another one, or is left out; what stands behind its end."""
    for at, byte in enumerate(RIGHT):
        other = b"%d" % ((byte - 47) % 10) if chr(byte).isdigit() else bytes([byte ^ 1])
        yield case(f"a_byte_of_a_claim_is_another {at}", SUM_OF_7, RIGHT[:at] + other + RIGHT[at + 1 :])
        yield case(f"a_byte_of_a_claim_is_left_out {at}", SUM_OF_7, RIGHT[:at] + RIGHT[at + 1 :])
    for end in (b"\n", b"Tick 0", b"Tick 0\n", b"[journal]\n", b"\x00", b"Tick 18446744073709551615\n", b"Tick 18446744073709551616\n"):
        yield case(f"behind_a_claim_stands {end!r}", SUM_OF_7, RIGHT + end)
    for count in (0, 1):
        yield case(f"a_claim_of_{count}_bytes", SUM_OF_7, RIGHT[:count], f"audit no {count + 1}\n")


def rows_worked_out_by_hand():
    left_out = RIGHT.replace(b"Push S0\n", b"")
    other = RIGHT.replace(b"1 a 7\n", b"1 a 8\n")
    yield case("a_claim_without_its_push", SUM_OF_7, left_out, "audit no 8\n")
    yield case("a_claim_of_another_output", SUM_OF_7, other, "audit no 1\n")
    yield case("a_claim_of_another_number_of_charges", SUM_OF_7, RIGHT.replace(b"charges 1", b"charges 2"), "audit no 4\n")
    yield case("a_claim_without_its_last_line_feed", SUM_OF_7, RIGHT[:-1], "audit no 10\n")
    yield case("a_claim_is_judged_by_the_never_cut_kernel_alone", SUM_OF_7, RIGHT.replace(b"Tick 0\n", b""), "audit yes\n")
    yield case("a_claim_with_another_job", SUM_OF_7.replace("S0 7", "S0 8"), RIGHT, "audit no 1\n")
    spread = "".join(f" {line} # {line}\r\n\n" for line in SUM_OF_7.splitlines())
    yield case("a_claim_behind_a_job_in_another_spelling", spread, RIGHT, "audit yes\n")


def rows_of_headers():
    """Which line ends the job, and which fault is told."""
    job, claim = SUM_OF_7.encode(), b"[claim]\n" + RIGHT
    name = "the_header_of_a_claim"
    yield refused(f"{name} isn't there", job, JOB_LINES + 1, "Missing")
    yield refused(f"{name} isn't there, without a last line feed", job[:-1], JOB_LINES + 1, "Missing")
    yield refused(f"{name} isn't there, with a fault of the job", job + b"charge x\n", JOB_LINES + 1, "BadNumber")
    comments = b"".join(b"#" + line for line in claim.splitlines(keepends=True))
    yield refused(f"{name} in a comment", job + comments, (job + comments).count(b"\n") + 1, "Missing")
    yield refused(f"{name} with a further word", job + claim.replace(b"]", b"] x", 1), JOB_LINES + 1, "UnknownWord")
    yield refused(f"{name} before the first charge", job.replace(b"charge", b"[claim]\ncharge"), JOB_LINES, "Missing")
    yield refused(f"{name} before the power", job.replace(b"[power]", b"[claim]\n[power]"), JOB_LINES - 1, "BadSection")
    yield refused(f"{name} in an open task", job.replace(b"done", b"[claim]\ndone"), 11, "Missing")
    yield refused(f"{name} behind a byte that isn't allowed", job + b"#\xff\n" + claim, JOB_LINES + 1, "BadByte")
    yield refused(f"{name} with such a byte in its line", job + claim.replace(b"]", b"] #\xff", 1), JOB_LINES + 1, "BadByte")
    yield case_of(f"{name} and free bytes behind it", job + b"[claim]\n\x00\xff\x80[journal]\n\xff", "audit no 3\n")
    yield case_of(f"{name} and a comment", job + claim.replace(b"]", b"] # of a run", 1), "audit yes\n")
    yield case_of(f"{name} ends the text", job + b"[claim]", "audit no 1\n")
    yield case_of(f"{name} stands twice", job + b"[claim]\n" + claim, "audit no 1\n")
    yield refused(f"{name} of a script", job + b"[radio]\n" + claim, JOB_LINES + 1, "BadSection")
    for mode in ("run", "sweep", "print", "radio"):
        yield refused(f"{name} with {mode}", job + claim, JOB_LINES + 1, "BadSection", mode)


def rows_behind_images():
    """The image is judged before the claim, and behind the header of the claim."""
    job = JOBS_WITH_IMAGES["of a sum"].encode()
    claim, header = b"[claim]\n" + claim_of(job.decode()), job[: job.index(b"[image2]")].count(b"\n") + 1
    end = job.count(b"\n") + 1
    name = "a_claim_behind_an_image"
    yield refused(f"{name} that is worn", job.replace(b"S0 5", b"S0" + b" 5" * 65535) + claim, header, "Worn")
    yield refused(f"{name} with a bad word", job.replace(b"[image2]\n", b"[image2]\n12\n") + claim, header + 1, "BadWord")
    yield refused(f"{name} with a further word", job.replace(b"[image2]\n", b"[image2]\n12\n") + claim.replace(b"]", b"] x", 1), end + 1, "UnknownWord")
    yield refused(f"{name} that isn't there", job, end, "Missing")
    yield refused(f"{name} of another header", job + b"[power]\n" + claim, end, "BadSection")


def rows_of_length():
    """The longest text has some 600,000 entries."""
    nothing = SUM + "[power]\ncharge 0\n"
    claim = claim_of(nothing)
    more, left = divmod(LIMIT - len(nothing) - len("[claim]\n") - len(claim), len("Tick 0\n"))
    spaced = nothing.replace("\n", " " * left + "\n", 1)
    yield case("the_longest_claim", spaced, claim + b"Tick 0\n" * more, "audit yes\n")
    yield case("the_longest_claim with another byte at its end", spaced, claim + b"Tick 0\n" * (more - 1) + b"Tick 1\n", "audit no 3\n")


def rows_of_claims():
    yield from rows_of_examples()
    yield from rows_of_runs()
    yield from rows_of_changed_lines()
    yield from rows_of_bytes()
    yield from rows_worked_out_by_hand()
    yield from rows_of_headers()
    yield from rows_behind_images()
    yield from rows_of_length()
