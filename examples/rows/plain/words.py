"""The words of a board: where each stands, what a slot's word says in today's form and in the earlier one, and those of the first image."""

from typing import NamedTuple

HEADER = 48
STAMP, NEXT, FIRST, ORIGIN, VALUE, FINISHED, SERVED, TRAPPED, EXPIRED, OUTPUTS = range(10)


def written(pipe):
    return 10 + pipe


def taken(pipe):
    return 18 + pipe


def due(timer):
    return 26 + 2 * timer


def period(timer):
    return 27 + 2 * timer


class Full(NamedTuple):
    position: int
    source: int
    number: int
    value: int


class Form(NamedTuple):
    """How the word of a slot has, from bit 0 on, the event's value, its number, its source in 4 bits, the position in 21, and the mark of a full one."""

    value_bits: int
    number_bits: int

    @property
    def source_at(self):
        return self.value_bits + self.number_bits

    @property
    def position_at(self):
        return self.source_at + 4

    @property
    def full_at(self):
        return self.position_at + 21

    def empty(self, position):
        return position << self.position_at

    def full(self, position, source, number, value):
        return 1 << self.full_at | position << self.position_at | source << self.source_at | number << self.value_bits | value

    def read(self, word):
        """The full slot of a word, none where it isn't the word of one."""
        if word >> self.full_at != 1:
            return None
        number = word >> self.value_bits & (1 << self.number_bits) - 1
        return Full(word >> self.position_at & (1 << 21) - 1, word >> self.source_at & 15, number, word & (1 << self.value_bits) - 1)


TODAY = Form(32, 6)  # the number is the event's count among those of its source, modulo 64
EARLIER = Form(16, 16)  # it is that of the reading


class Places:
    """The addresses of a program's board."""

    def __init__(self, program):
        self.program, self.size = program, 0
        self.tasks = [self.room(len(task.code)) for task in program.tasks]
        self.commits, self.blocks, self.logs = [], [], []
        for thread in program.threads:
            self.commits.append(self.room(1))
            self.blocks.append(self.room(16 * thread.pages))
            self.logs.append(self.room(thread.log))
        self.rings = [self.room(pipe.places) for pipe in program.pipes]
        self.queues = [self.room(1 + thread.queue) for thread in program.threads]
        self.acks = self.room(len(program.sources))
        self.clock = self.room(1)
        self.sources = self.room(len(program.sources))

    def room(self, words):
        self.size += words
        return self.size - words

    def code(self, task, offset):
        return self.tasks[task] + offset

    def commit(self, thread):
        return self.commits[thread]

    def page_word(self, thread, word, mask):
        """Word `word` of a block in the copy that a mask of the pages names."""
        return self.blocks[thread] + 16 * (word // 8) + 8 * (mask >> word // 8 & 1) + word % 8

    def log(self, thread, number):
        return self.logs[thread] + number

    def ring(self, pipe, item):
        return self.rings[pipe] + item % self.program.pipes[pipe].places

    def tail(self, thread):
        return self.queues[thread]

    def slot(self, thread, position):
        return self.queues[thread] + 1 + position % self.program.threads[thread].queue

    def ack(self, source):
        return self.acks + source

    def src(self, source):
        return self.sources + source


def first_words(program):
    places = Places(program)
    words = [0] * places.size
    for number, task in enumerate(program.tasks):
        for offset, instruction in enumerate(task.code):
            words[places.code(number, offset)] = instruction.word
    for number, timer in enumerate(program.timers):
        for mask in (0, -1):
            words[places.page_word(timer.thread, due(number), mask)] = 0 if timer.due is None else timer.due + 1
            words[places.page_word(timer.thread, period(number), mask)] = timer.period
    for number, thread in enumerate(program.threads):
        for position in range(thread.queue):
            words[places.slot(number, position)] = TODAY.empty(position)
    return words
