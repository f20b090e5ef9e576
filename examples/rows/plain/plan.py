"""What `plan` writes of a program: a bound of what a service by each task takes of the kernel's turns, and how many turns a charge should have."""

from plain import bounds
from plain.image import Fault

TURNS = {"send": 6, "out": 4, "arm": 3, "ld": 2, "st": 2, "stop": 2}  # of an instruction, its fetch among them; of any other one 1
JUMPS = ("jmp", "jz", "jnz")
ENDS = ("jmp", "next", "done")  # the instruction below doesn't follow
TRAPS = ("divu", "remu", "ld", "st", "out")


def turns(instruction):
    return TURNS.get(instruction.name, 1)


def is_forward(task):
    jumps_up = all(instruction.i > at for at, instruction in enumerate(task.code) if instruction.name in JUMPS)
    return jumps_up and len(task.code) <= task.limit


def following(code, at):
    """The offsets at which a task may go on behind an instruction."""
    below = [] if code[at].name in ENDS else [at + 1]
    return below + [code[at].i] if code[at].name in JUMPS else below


def heaviest(code):
    """What the heaviest path through forward code takes, found from the last instruction back."""
    rest = {}
    for at in reversed(range(len(code))):
        rest[at] = turns(code[at]) + max((rest[behind] for behind in following(code, at)), default=0)
    return rest[0]


def turns_of_code(task):
    return heaviest(task.code) if is_forward(task) else task.limit * max(map(turns, task.code))


def bound(program, task):
    can_trap = not is_forward(task) or any(instruction.name in TRAPS for instruction in task.code)
    begun = 2 if can_trap else 1  # behind a trap the service begins again
    return turns_of_code(task) + begun * (16 * program.threads[task.thread].pages + 5) + 6


def plan_text(program):
    kinds = ["forward" if is_forward(task) else "looped" for task in program.tasks]
    lines = [f"task {task.name} {kind} code {turns_of_code(task)} bound {bound(program, task)}" for task, kind in zip(program.tasks, kinds)]
    least = bounds.boot(program) + bounds.scan(program) + 2 + max(bound(program, task) for task in program.tasks)
    return "".join(f"{line}\n" for line in [*lines, f"least {least}"])


def answer_of_plan(job):
    """The text of the plan of a job's program. The header of an image, or of anything else behind the charges, is a fault."""
    return plan_text(job.program) if job.header is None else Fault(job.header.number, "BadSection")
