"""Rows of plans. What each should print is worked out by the plain reading, from the code of the tasks; how a job is refused is written down here."""

from claim_rows import EXAMPLES, JOBS_WITH_IMAGES, SUM_OF_7
from image_rows import Case
from plain.image import Fault
from plain.job import read_job
from plain.plan import answer_of_plan
from station_rows import station


def case(name, job, wanted=None):
    """What is wanted, where it is given here, has to be what is worked out."""
    found = answer_of_plan(read_job(job))
    if wanted not in (None, found):
        raise AssertionError(f"{name}: {found} worked out")
    return Case(name, ["plan"], job, found)


def refused(name, text, line, cause):
    return Case(name, ["plan"], text, Fault(line, cause))


def job_of(*program):
    return "\n".join(["[program]", *program, "[sensors]", "[power]", "charge 0"]) + "\n"


def thread(name="a", priority=1, state=0, more=""):
    return f"thread {name} priority {priority} queue 2 state {state} log 8 {more}"


def task(name, limit, *code, of="a"):
    return [f"task {name} thread {of} limit {limit}", *code, "end"]


def rows_worked_out_by_hand():
    yield case("the_plan_of_a_sum", SUM_OF_7, "task sum forward code 12 bound 252\nleast 267\n")
    chain = job_of(thread(more="expires 20"), "source a", *task("t1", 10, "ev r0", "next t2"), *task("t2", 10, "li r0 1", "out r0", "done"))
    two = "task t1 forward code 2 bound 109\ntask t2 forward code 6 bound 214\nleast 229\n"
    yield case("a_task_that_cannot_trap_pays_for_its_pages_once", chain, two)
    loop = job_of(thread(), *task("wait", 50, "ev r0", "l:", "jnz r0 l", "done"))
    yield case("a_loop_takes_its_limit", loop, "task wait looped code 50 bound 258\nleast 273\n")


def rows_of_code():
    """Each instruction alone, code of each kind, programs with each part that a scan looks at."""
    pipe = [thread(), thread("b", 2), "pipe p 4 from a to b", "timer t thread a off", *task("rest", 1, "done", of="b")]
    words = ["li r1 0", "mov r1 r2", "add r1 r2 r3", "divu r1 r2 r3", "remu r1 r2 r3", "ev r1", "now r1", "ld r1 r2", "st r1 r2", "out r1"]
    words += ["send p r1 r2", "arm t r1 r2", "stop t", "jmp e", "jz r1 e", "jnz r1 e", "next one"]
    for word in words:
        yield case(f"what_an_instruction_takes {word}", job_of(*pipe, *task("one", 9, word, "e:", "done")))
    branches = ["jz r1 far", "out r1", "jmp end", "far:", "send p r1 r2", "jnz r1 end", "st r1 r2", "end:", "done"]
    yield case("the_heavier_branch_counts", job_of(*pipe, *task("one", 9, *branches)))
    yield case("the_heavier_branch_counts, past an end of the task", job_of(*pipe, *task("one", 9, "jz r1 e", "done", "e:", "out r1", "next one")))
    yield case("the_heavier_branch_counts, not one that nothing leads to", job_of(*pipe, *task("one", 9, "jmp e", "out r1", "e:", "done")))
    for limit in (1, 2, 3, 4, 4096):
        yield case(f"code_that_is_longer_than_its_limit_is_looped {limit}", job_of(thread(), *task("one", limit, "st r1 r1", "ev r1", "done")))
    for target in ("above", "here"):
        code = ["ev r1", "above:", "out r1", "here:", f"jz r1 {target}", "done"]
        yield case(f"a_jump_that_goes_to_no_later_instruction_is_looped {target}", job_of(thread(), *task("one", 20, *code)))
    for state in (0, 1, 8, 9, 255, 256):
        yield case(f"a_plan_pays_for_the_pages_of_a_state {state}", job_of(thread(state=state), *task("one", 20, "ld r1 r1", "done"), *task("two", 20, "ev r1", "done")))
    most = [thread(f"t{n}", n) for n in range(16)] + [f"pipe p{n} 1 from t{n} to t{n + 1}" for n in range(8)] + [f"timer m{n} thread t0 off" for n in range(8)]
    yield case("a_scan_looks_at_all_parts", job_of(*most, *(line for n in range(16) for line in task(f"k{n}", n + 1, "done", of=f"t{n}"))))


def rows_of_examples():
    """The plan of each example and of each row; one with an image, a claim or a script is refused at its header."""
    for path in sorted([*EXAMPLES.glob("*.job"), *EXAMPLES.glob("rows/*.job")]):
        words = path.with_suffix(".words")
        is_job = not words.exists() or words.read_text().split()[0] != "station"
        if is_job and not path.with_suffix(".status").exists():
            yield case(f"a_plan_of_each_program {path.stem}", path.read_text())


def rows_of_refusals():
    """A plan is that of a job which ends with its charges."""
    end, name = SUM_OF_7.count("\n") + 1, "a_plan_ends_with_the_charges"
    for header in ("[image1]", "[image2]", "[image2] x", "[claim]", "[radio]", "[board]", "[power]", "["):
        yield refused(f"{name} {header}", f"{SUM_OF_7}{header}\n", end, "BadSection")
    yield refused(f"{name}, not with a right image", JOBS_WITH_IMAGES["of a sum"], end, "BadSection")
    yield refused(f"{name}, and not before", SUM_OF_7.replace("charge", "[image2]\ncharge"), end - 1, "BadSection")
    yield refused("a_plan_is_of_one_job", station(SUM_OF_7), 1, "BadSection")
    yield refused("a_plan_is_of_a_job", "", 1, "Missing")


def rows_of_plans():
    yield from rows_worked_out_by_hand()
    yield from rows_of_code()
    yield from rows_of_examples()
    yield from rows_of_refusals()
