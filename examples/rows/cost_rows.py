"""Rows of what a service costs. The kernel gets just the turns up to a commit that are added up by the table of docs/NODE.md, "Sizing a charge", and in a
second row one turn fewer: then that commit is missing. What each should print is worked out by the plain reading, which makes the accesses one by one."""

import pathlib
from typing import NamedTuple

from image_rows import Case
from plain import bounds
from plain.image import answer
from plain.job import read_job

PAGE = pathlib.Path(__file__).resolve().parents[2] / "docs/NODE.md"


def parts():
    """The turns of each part of a service, by the page's table."""
    section = PAGE.read_text().split("## Sizing a charge\n")[1].split("\n## ")[0]
    cells = [[cell.strip() for cell in line.strip("|").split("|")] for line in section.splitlines() if line.startswith("|")]
    return {name: int(turns) for name, turns in cells if turns.isdigit()}


PARTS = parts()
READING, ITEM, TIMER, CHAIN = "start, for a reading", "start, for a pipe's item", "start, for a timer", None
NEXT, DONE, DONE_WITH_READING = ("end by `next`",), ("any other end",), ("any other end", "more for that of a reading")
BOOT = 3  # for each thread
SCAN = {READING: 5, ITEM: 9, TIMER: 6, CHAIN: 6}  # of a thread that is the first to be looked at, and has no pipe before that item or timer
RELEASE = 2


def turns_of_code(code):
    """Those of the instructions; one that traps or finds no room tells so behind its line."""
    turns = 0
    for line in code:
        word, _, how = line.partition(" # ")
        turns += PARTS["each instruction"] + PARTS.get(f"more for `{word.split()[0]}` {how}".strip(), 0)
    return turns


class Service(NamedTuple):
    """A service up to its commit: its event, the instructions that it executes, its end, and how often it copies eight words. Behind a trap it starts again."""

    event: str | None
    code: tuple
    end: tuple
    copies: int
    starts: int = 1

    def turns(self):
        start = 0 if self.event is CHAIN else self.starts * PARTS[self.event]
        end = sum(PARTS[part] for part in self.end)
        return SCAN[self.event] + start + turns_of_code(self.code) + end + PARTS["commit"] + self.copies * PARTS["copy of eight words"]


class Row(NamedTuple):
    """A program, and the services that its kernel comes to one after the other."""

    name: str
    program: list
    services: list
    more: int = 0  # turns of a scan for threads that are passed, and for a thread that expires
    tick_at: int = 0  # the turns of the kernel before a tick

    def turns(self):
        """Those up to the last commit."""
        boot = BOOT * sum(line.startswith("thread") for line in self.program)
        releases = RELEASE * sum(service.end == DONE_WITH_READING for service in self.services[:-1])
        return boot + sum(service.turns() for service in self.services) + releases + self.more

    def job(self, turns):
        has_source = any(line.startswith("source") for line in self.program)
        sensors, pushed = (["S0 7"], "S0*9 ") if has_source else ([], "")
        charge = f"charge 0 {pushed}K*{self.tick_at} T K*{turns - self.tick_at}" if self.tick_at else f"charge 0 {pushed}K*{turns}"
        return "\n".join(["[program]", *self.program, "[sensors]", *sensors, "[power]", charge]) + "\n"


def thread(name, priority, expires=""):
    return f"thread {name} priority {priority} queue 2 state 16 log 2 {expires}"


def task(name, *code, of="a", limit=99):
    return [f"task {name} thread {of} limit {limit}", *code, "end"]


def of_reading(name, *code, copies, starts=1, limit=99):
    """A reading that is served by one task, whose thread writes a pipe of one place and has four timers."""
    program = [thread("a", 9), thread("w", 1), "source a", "pipe p 1 from a to w", *(f"timer t{n} thread a off" for n in range(4))]
    further = ["done"] if starts == 2 else []  # behind the instruction that traps
    tasks = task("serve", *code, *further, limit=limit) + task("rest", "done", of="w")
    return Row(name, program + tasks, [Service(READING, code, DONE_WITH_READING, copies, starts)])


PLAIN = ["li r1 7", "mov r2 r1", "add r3 r1 r2", "sub r3 r1 r2", "mul r3 r1 r2", "and r3 r1 r2", "or r3 r1 r2", "xor r3 r1 r2", "shl r3 r1 r2", "shr r3 r1 r2"]
PLAIN += ["divu r3 r1 r2", "remu r3 r1 r2", "ltu r3 r1 r2", "eq r3 r1 r2", "ev r4", "kind r4", "num r4", "now r4"]


def of_item():
    """Thread w sends what it reads; its queue is looked at again before thread a takes the item."""
    program = [thread("a", 1), thread("w", 9), "source w", "pipe p 2 from w to a", *task("give", "send p r1 r0", "done", of="w"), *task("take", "done")]
    given = Service(READING, ("send p r1 r0", "done"), DONE_WITH_READING, 2)
    return Row("of an item", program, [given, Service(ITEM, ("done",), DONE, 2)], more=4)


def of_timer():
    program = [thread("a", 1), "timer t thread a due 0 period 10", *task("serve", "done")]
    return Row("of a timer", program, [Service(TIMER, ("done",), DONE, 2)])


def chain(expires=""):
    tasks = task("one", "st r0 r0", "next two") + task("two", "next three") + task("three", "out r0", "done")
    return [thread("a", 1, expires), "source a", *tasks]


FIRST = Service(READING, ("st r0 r0", "next two"), NEXT, 2)


def of_chain():
    return Row("of a chain", chain(), [FIRST, Service(CHAIN, ("next three",), NEXT, 1), Service(CHAIN, ("out r0", "done"), DONE_WITH_READING, 2)])


def of_chain_that_expires():
    """A tick comes behind the scan of its first task."""
    return Row("of a chain that expires", chain("expires 0"), [FIRST, Service(CHAIN, (), DONE_WITH_READING, 2)], more=1, tick_at=8)


ROWS = [
    of_reading("of a reading", "done", copies=1),
    of_reading("of instructions that stay in the registers", *PLAIN, "done", copies=1),
    of_reading("of a sum", "li r1 0", "ld r2 r1", "ev r3", "add r2 r2 r3", "st r2 r1", "out r2", "done", copies=3),
    of_reading("of state numbers in two groups of eight", "li r1 8", "st r1 r0", "st r1 r1", "st r0 r0", "done", copies=3),
    of_reading("of two outputs", "out r0", "out r0", "done", copies=2),
    of_reading("of a pipe that gets full", "send p r1 r0", "send p r1 r0 # to a pipe without room", "done", copies=2),
    of_reading("of timers in two groups of eight", "arm t3 r0 r0", "stop t3", "stop t0", "done", copies=3),
    of_reading("of a trap behind a store", "li r1 1", "st r1 r0", "divu r1 r1 r0", copies=3, starts=2),
    of_reading("of a load that traps", "li r1 16", "ld r1 r1 # that traps", copies=2, starts=2),
    of_reading("of a store that traps", "li r1 16", "out r1", "st r1 r1 # that traps", copies=3, starts=2),
    of_reading("of an output that traps", "out r0", "out r0", "out r0 # that traps", copies=3, starts=2),
    of_reading("of a task at its limit", "ev r0", "ev r0", copies=2, starts=2, limit=2),
    of_item(),
    of_timer(),
    of_chain(),
    of_chain_that_expires(),
]


def case(name, row, turns, commits):
    """A run with so many turns of the kernel, which has to come to so many commits."""
    job = read_job(row.job(turns))
    text = answer(job, ["--bounds"])
    if f" commits {commits} charges 1\n" not in text:
        raise AssertionError(f"{name}: not {commits} commits\n{text}")
    if row.turns() + RELEASE > bounds.boot(job.program) + len(row.services) * bounds.a_round(job.program):
        raise AssertionError(f"{name}: beyond its bounds")
    return Case(name, ["run", "--bounds"], row.job(turns), text)


def rows_of_costs():
    for row in ROWS:
        turns, commits = row.turns(), len(row.services)
        yield case(f"a_service_commits_with_its_last_turn {row.name}", row, turns, commits)
        yield case(f"a_service_commits_with_its_last_turn {row.name}, a turn fewer", row, turns - 1, commits - 1)
