"""The accesses of the kernel: its boot, its scans, the service of a pick."""

from typing import NamedTuple

from plain.access import LOW, load, store
from plain.words import EXPIRED, FINISHED, FIRST, NEXT, ORIGIN, OUTPUTS, SERVED, STAMP, TODAY, TRAPPED, VALUE, due, period, taken, written


class Pick(NamedTuple):
    """What a scan found: a thread with its commit word, the event's origin and value, the running task's number, the scan's time and what was loaded."""

    thread: int
    commit: int
    origin: int
    value: int
    time: int
    position: int
    running: int | None = None
    first: int = 0
    loaded: int = 0  # the items that were taken from the pipe, or the word of the timer


def origin_of_source(source, number):
    return 1 << 56 | source << 16 | number


class Kernel:
    """The accesses of the kernel in one charge."""

    def __init__(self, board):
        self.program, self.places, self.entries, self.stamp = board.program, board.places, board.entries, 0

    def run(self):
        yield from self.boot()
        while True:
            pick = yield from self.scan()
            if pick is not None:
                yield from Service(self, pick).run()

    def head(self, thread, mask, word):
        return load(self.places.page_word(thread, word, mask))

    def release(self, thread, full):
        """ACK first, then the slot."""
        yield store(self.places.ack(full.source), (full.number + 1) % 64)
        yield store(self.places.slot(thread, full.position), TODAY.empty(full.position + self.program.threads[thread].queue))
        self.entries.append(f"Release {self.program.threads[thread].name}")

    def boot(self):
        for thread in range(len(self.program.threads)):
            mask = yield load(self.places.commit(thread))
            self.stamp = max(self.stamp, (yield self.head(thread, mask, STAMP)))
            finished = yield self.head(thread, mask, FINISHED)
            if finished > 0:
                full = TODAY.read((yield load(self.places.slot(thread, finished - 1))))
                if full is not None and full.position == finished - 1:
                    yield from self.release(thread, full)

    def scan(self):
        time = yield load(self.places.clock)
        self.entries.append("Scan")
        for thread in sorted(range(len(self.program.threads)), key=lambda it: -self.program.threads[it].priority):
            pick = yield from self.look(thread, time)
            if pick is not None:
                return pick
        return None

    def look(self, thread, time):
        mask = yield load(self.places.commit(thread))
        running = yield self.head(thread, mask, NEXT)
        position = yield self.head(thread, mask, FINISHED)
        if running != 0:
            origin = yield self.head(thread, mask, ORIGIN)
            value = yield self.head(thread, mask, VALUE)
            first = 0 if self.program.threads[thread].expires is None else (yield self.head(thread, mask, FIRST))
            return Pick(thread, mask, origin, value, time, position, running - 1, first)
        full = TODAY.read((yield load(self.places.slot(thread, position))))
        if full is not None and full.position == position:
            return Pick(thread, mask, origin_of_source(full.source, full.number), full.value, time, position)
        self.entries.append(f"Look {self.program.threads[thread].name}")
        for number, pipe in enumerate(self.program.pipes):
            if pipe.reader == thread:
                item = yield self.head(thread, mask, taken(number))
                writer = yield load(self.places.commit(pipe.writer))
                if (yield self.head(pipe.writer, writer, written(number))) > item:
                    value = yield load(self.places.ring(number, item))
                    return Pick(thread, mask, 2 << 56 | number << 32 | item, value, time, position, loaded=item)
        for number, timer in enumerate(self.program.timers):
            if timer.thread == thread:
                word = yield self.head(thread, mask, due(number))
                if word != 0 and word - 1 <= time:
                    return Pick(thread, mask, 3 << 56 | number << 48 | word - 1, word - 1 & LOW, time, position, loaded=word)
        return None


class Trap(Exception):
    """A task can't go on."""


class Service:
    """The accesses from a pick to the commit, and the release behind it."""

    def __init__(self, kernel, pick):
        self.kernel, self.pick, self.dirty = kernel, pick, 0
        self.program, self.places, self.thread = kernel.program, kernel.places, kernel.program.threads[pick.thread]

    def run(self):
        yield from self.begin()
        if self.has_expired():
            ended, following = EXPIRED, 0
        else:
            try:
                following = yield from self.task()
                ended = SERVED
            except Trap:
                self.dirty = 0
                yield from self.begin()
                ended, following = TRAPPED, 0
        yield from self.end(ended, following)

    def has_expired(self):
        pick = self.pick
        return pick.running is not None and self.thread.expires is not None and pick.time - pick.first > self.thread.expires

    def at(self, word, mask):
        return self.places.page_word(self.pick.thread, word, mask)

    def read(self, word):
        return (yield load(self.at(word, self.pick.commit ^ self.dirty)))

    def write(self, word, value):
        page = word // 8
        if not self.dirty >> page & 1:
            for each in range(8 * page, 8 * page + 8):
                copied = yield load(self.at(each, self.pick.commit))
                yield store(self.at(each, ~self.pick.commit), copied)
            self.dirty |= 1 << page
        yield store(self.at(word, ~self.pick.commit), value)

    def begin(self):
        """A service of an idle thread notes its event, and takes it from its pipe or timer."""
        pick = self.pick
        if pick.running is not None:
            return
        for word, value in ((FIRST, pick.time), (ORIGIN, pick.origin), (VALUE, pick.value)):
            yield from self.write(word, value)
        kind = pick.origin >> 56
        if kind == 2:
            yield from self.write(taken(pick.origin >> 32 & 255), pick.loaded + 1)
        if kind == 3:
            timer = pick.origin >> 48 & 255
            ticks = yield from self.read(period(timer))
            yield from self.write(due(timer), pick.loaded + ticks if ticks else 0)

    def task(self):
        """What the chain goes on with: 1 plus a task, or 0."""
        number = self.pick.running
        if number is None:
            number = next(at for at, task in enumerate(self.program.tasks) if task.thread == self.pick.thread)
        task, registers, offset = self.program.tasks[number], [0] * 16, 0
        for _ in range(task.limit):
            yield load(self.places.code(number, offset))
            it = task.code[offset]
            offset += 1
            if it.name == "next":
                return it.i + 1
            if it.name == "done":
                return 0
            if it.name in JUMPS:
                offset = it.i if JUMPS[it.name](registers[it.a]) else offset
            elif it.name in PLAIN:
                registers[it.a] = PLAIN[it.name](it, registers[it.b], registers[it.c], self.pick)
            else:
                yield from getattr(self, it.name)(it, registers)
        raise Trap

    def ld(self, it, registers):
        registers[it.a] = yield from self.read(self.state_word(registers[it.b]))

    def st(self, it, registers):
        yield from self.write(self.state_word(registers[it.b]), registers[it.a])

    def state_word(self, number):
        if number >= self.thread.state:
            raise Trap
        return 48 + number

    def out(self, it, registers):
        count = yield from self.read(OUTPUTS)
        if count >= self.thread.log:
            raise Trap
        yield store(self.places.log(self.pick.thread, count), self.kernel.stamp + 1 << 32 | registers[it.a])
        yield from self.write(OUTPUTS, count + 1)

    def send(self, it, registers):
        pipe = self.program.pipes[it.i]
        mask = yield load(self.places.commit(pipe.reader))
        gone = yield load(self.places.page_word(pipe.reader, taken(it.i), mask))
        count = yield from self.read(written(it.i))
        value, has_room = registers[it.b], count - gone < pipe.places
        registers[it.a] = int(has_room)
        if has_room:
            yield store(self.places.ring(it.i, count), value)
            yield from self.write(written(it.i), count + 1)

    def arm(self, it, registers):
        yield from self.write(due(it.i), self.pick.time + registers[it.a] + 1)
        yield from self.write(period(it.i), registers[it.b])

    def stop(self, it, registers):
        yield from self.write(due(it.i), 0)

    def end(self, ended, following):
        pick, kernel = self.pick, self.kernel
        is_of_queue = pick.origin >> 56 == 1
        yield from self.write(NEXT, following)
        if following == 0:
            if is_of_queue:
                yield from self.write(FINISHED, pick.position + 1)
            count = yield from self.read(ended)
            yield from self.write(ended, count + 1)
        yield from self.write(STAMP, kernel.stamp + 1)
        yield store(self.places.commit(pick.thread), pick.commit ^ self.dirty)
        kernel.entries.append(f"Commit {self.thread.name}")
        kernel.stamp += 1
        if following == 0 and is_of_queue:
            slot = TODAY.full(pick.position, pick.origin >> 16 & 255, pick.origin & 63, pick.value)
            yield from kernel.release(pick.thread, TODAY.read(slot))


JUMPS = {"jmp": lambda a: True, "jz": lambda a: a == 0, "jnz": lambda a: a != 0}

# What an instruction sets its register a to, by registers b and c and the pick.
PLAIN = {
    "li": lambda it, b, c, pick: it.i,
    "mov": lambda it, b, c, pick: b,
    "add": lambda it, b, c, pick: b + c & LOW,
    "sub": lambda it, b, c, pick: b - c & LOW,
    "mul": lambda it, b, c, pick: b * c & LOW,
    "and": lambda it, b, c, pick: b & c,
    "or": lambda it, b, c, pick: b | c,
    "xor": lambda it, b, c, pick: b ^ c,
    "shl": lambda it, b, c, pick: b << c % 32 & LOW,
    "shr": lambda it, b, c, pick: b >> c % 32,
    "divu": lambda it, b, c, pick: quotient(b, c)[0],
    "remu": lambda it, b, c, pick: quotient(b, c)[1],
    "ltu": lambda it, b, c, pick: int(b < c),
    "eq": lambda it, b, c, pick: int(b == c),
    "ev": lambda it, b, c, pick: pick.value,
    "kind": lambda it, b, c, pick: pick.origin >> 56,
    "num": lambda it, b, c, pick: pick.origin >> {1: 16, 2: 32, 3: 48}[pick.origin >> 56] & 255,
    "now": lambda it, b, c, pick: pick.time & LOW,
}


def quotient(b, c):
    if c == 0:
        raise Trap
    return divmod(b, c)
