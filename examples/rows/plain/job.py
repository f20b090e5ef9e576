"""The parts of a job, read off a text that has no fault up to the header of its image."""

from typing import NamedTuple

# Each instruction by its opcode, 1 for the first, with the operands of its text: registers a, b and c, and i for a number or a name.
INSTRUCTIONS = {
    "li": "ai", "mov": "ab", "add": "abc", "sub": "abc", "mul": "abc", "and": "abc", "or": "abc", "xor": "abc", "shl": "abc", "shr": "abc",
    "divu": "abc", "remu": "abc", "ltu": "abc", "eq": "abc", "jmp": "i", "jz": "ai", "jnz": "ai", "ev": "a", "kind": "a", "num": "a", "now": "a",
    "ld": "ab", "st": "ab", "out": "a", "send": "iab", "arm": "iab", "stop": "i", "next": "i", "done": "",
}  # fmt: skip
OPCODES = {name: number for number, name in enumerate(INSTRUCTIONS, 1)}


class Thread(NamedTuple):
    name: str
    priority: int
    queue: int
    state: int
    log: int
    expires: int | None

    @property
    def pages(self):
        return 6 + (self.state + 7) // 8


class Pipe(NamedTuple):
    name: str
    places: int
    writer: int
    reader: int


class Timer(NamedTuple):
    name: str
    thread: int
    due: int | None
    period: int


class Instruction(NamedTuple):
    name: str
    a: int = 0
    b: int = 0
    c: int = 0
    i: int = 0

    @property
    def word(self):
        return OPCODES[self.name] | self.a << 8 | self.b << 12 | self.c << 16 | self.i << 32


class Task(NamedTuple):
    name: str
    thread: int
    limit: int
    code: list


class Program(NamedTuple):
    threads: list
    sources: list  # the thread of each
    pipes: list
    timers: list
    tasks: list


class Charge(NamedTuple):
    off: int
    items: list  # an actor and a number of turns each


class Line(NamedTuple):
    number: int
    words: list


class Job(NamedTuple):
    program: Program
    readings: list  # those that are listed for each source
    charges: list
    header: Line | None  # of its image
    image: list  # the lines behind that
    lines: int


def lines_of(text):
    """The lines that have words, each with its number from 1 on."""
    split = [Line(number, line.split("#")[0].split()) for number, line in enumerate(text.split("\n"), 1)]
    return [line for line in split if line.words]


def index(parts, name):
    return next(number for number, part in enumerate(parts) if part.name == name)


def read_thread(words):
    name, priority, queue, state, log = words[1], *map(int, words[3:10:2])
    return Thread(name, priority, queue, state, log, int(words[11]) if len(words) > 10 else None)


def read_timer(words, threads):
    thread = index(threads, words[3])
    return Timer(words[1], thread, None, 0) if words[4] == "off" else Timer(words[1], thread, int(words[5]), int(words[7]))


def read_instruction(words, labels, program):
    """An instruction, whose name is that of a label, a pipe, a timer, a task, or a number."""
    name = words[0]
    named = {"send": program.pipes, "arm": program.timers, "stop": program.timers, "next": program.tasks}
    made = {}
    for operand, word in zip(INSTRUCTIONS[name], words[1:]):
        if operand != "i":
            made[operand] = int(word[1:])
        elif name in named:
            made["i"] = index(named[name], word)
        else:
            made["i"] = int(word) if name == "li" else labels[word]
    return Instruction(name, **made)


def read_code(lines, program):
    labels, code = {}, []
    for words in lines:
        if words[0].endswith(":"):
            labels[words[0][:-1]] = len(code)
        else:
            code.append(words)
    return [read_instruction(words, labels, program) for words in code]


def read_program(lines):
    program, bodies, is_open = Program([], [], [], [], []), [], False
    for words in lines:
        if is_open:
            is_open = words[0] != "end"
            bodies[-1] += [words] if is_open else []
        elif words[0] == "thread":
            program.threads.append(read_thread(words))
        elif words[0] == "source":
            program.sources.append(index(program.threads, words[1]))
        elif words[0] == "pipe":
            program.pipes.append(Pipe(words[1], int(words[2]), index(program.threads, words[4]), index(program.threads, words[6])))
        elif words[0] == "timer":
            program.timers.append(read_timer(words, program.threads))
        else:
            program.tasks.append(Task(words[1], index(program.threads, words[3]), int(words[5]), []))
            bodies.append([])
            is_open = True
    for task, body in zip(program.tasks, bodies):
        task.code.extend(read_code(body, program))
    return program


def read_charge(words):
    items = [word.partition("*") for word in words[2:]]
    return Charge(int(words[1]), [(actor, int(count) if star else 1) for actor, star, count in items])


def read_job(text):
    """The job of a text without its image, and the lines of that."""
    sections = []
    for line in lines_of(text):
        if line.words[0].startswith("[") and len(sections) < 4:
            sections.append([])
        sections[-1].append(line)
    sections += [[]] * (4 - len(sections))
    program = read_program([line.words for line in sections[0][1:]])
    readings = [[] for _ in program.sources]
    for line in sections[1][1:]:
        readings[int(line.words[0][1:])] += map(int, line.words[1:])
    charges = [read_charge(line.words) for line in sections[2][1:]]
    image = sections[3]
    return Job(program, readings, charges, image[0] if image else None, image[1:], text.count("\n") + (not text.endswith("\n")))
