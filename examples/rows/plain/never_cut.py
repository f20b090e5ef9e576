"""The never-cut kernel: its state, which has lists and no words, and what each entry of a journal asks and makes of it."""

from typing import NamedTuple

from plain.access import LOW
from plain.kernel import JUMPS, PLAIN, Trap, origin_of_source
from plain.told import Told
from plain.words import EXPIRED, FIRST, HEADER, NEXT, ORIGIN, SERVED, TRAPPED, VALUE, due, period, taken, written

CLOCK = 1 << 47  # the clock stays below it


class Event(NamedTuple):
    origin: int
    value: int

    @property
    def is_of_queue(self):
        return self.origin >> 56 == 1


class Served(NamedTuple):
    """What a task knows of its service."""

    origin: int
    value: int
    time: int


class Meaning:
    """What a task makes of a state, if it ends; else it traps. `rooms` are those of the pipes, `room` is that of the log."""

    def __init__(self, task, served, state, rooms, room):
        self.served, self.state, self.rooms, self.room = served, list(state), list(rooms), room
        self.sent, self.outputs, self.set, self.registers = [], [], [], [0] * 16
        self.following = self.end_of(task)

    def end_of(self, task):
        """The task with which the chain goes on, or None where the service is over."""
        offset = 0
        for _ in range(task.limit):
            it = task.code[offset]
            offset += 1
            if it.name in ("next", "done"):
                return it.i if it.name == "next" else None
            if it.name in JUMPS:
                offset = it.i if JUMPS[it.name](self.registers[it.a]) else offset
            elif it.name in PLAIN:
                self.registers[it.a] = PLAIN[it.name](it, self.registers[it.b], self.registers[it.c], self.served)
            else:
                getattr(self, it.name)(it, self.registers)
        raise Trap

    def place(self, number):
        if number >= len(self.state):
            raise Trap
        return number

    def ld(self, it, registers):
        registers[it.a] = self.state[self.place(registers[it.b])]

    def st(self, it, registers):
        self.state[self.place(registers[it.b])] = registers[it.a]

    def out(self, it, registers):
        if len(self.outputs) == self.room:
            raise Trap
        self.outputs.append(registers[it.a])

    def send(self, it, registers):
        value, has_room = registers[it.b], self.rooms[it.i] > 0
        registers[it.a] = int(has_room)
        if has_room:
            self.rooms[it.i] -= 1
            self.sent.append((it.i, value))

    def arm(self, it, registers):
        self.set.append((it.i, self.served.time + registers[it.a], registers[it.b]))

    def stop(self, it, registers):
        self.set.append((it.i, None, None))


class Thread:
    def __init__(self, told, number):
        self.made_as = told.program.threads[number]
        self.state = [told.head(number, HEADER + at) for at in range(self.made_as.state)]
        following = told.head(number, NEXT)
        self.running = following - 1 if following else None
        self.event = Event(told.head(number, ORIGIN), told.head(number, VALUE)) if following else None
        self.first = told.head(number, FIRST)
        self.held = [Event(origin_of_source(full.source, full.number), full.value) for full in told.held(number)]
        self.is_finished = told.has_finished(number)
        self.served, self.trapped, self.expired = (told.head(number, word) for word in (SERVED, TRAPPED, EXPIRED))


class Pipe:
    def __init__(self, told, number):
        self.made_as = pipe = told.program.pipes[number]
        self.taken = told.head(pipe.reader, taken(number))
        self.items = [told.words[told.places.ring(number, item)] for item in range(self.taken, told.head(pipe.writer, written(number)))]

    @property
    def room(self):
        return self.made_as.places - len(self.items)


class Timer:
    def __init__(self, told, number):
        self.thread = told.program.timers[number].thread
        word = told.head(self.thread, due(number))
        self.due, self.period = word - 1 if word else None, told.head(self.thread, period(number))


class Source:
    def __init__(self, told, number, readings):
        source = told.source(number)
        self.thread, self.readings, self.next, self.accepted, self.is_refused = told.program.sources[number], readings, source.next, source.accepted, False


class Scan(NamedTuple):
    time: int
    looked: set


class NeverCut:
    """The state for which the words of a start stand. `enter` makes an entry, where it is legal."""

    def __init__(self, program, readings, words):
        told = Told(program, words)
        self.program, self.clock, self.outputs, self.commits, self.current = program, words[told.places.clock], told.outputs(), told.commits(), None
        self.threads = [Thread(told, number) for number in told.threads]
        self.pipes = [Pipe(told, number) for number in range(len(program.pipes))]
        self.timers = [Timer(told, number) for number in range(len(program.timers))]
        self.sources = [Source(told, number, readings[number]) for number in told.sources]

    def enter(self, entry):
        """Whether the entry is legal. Then its effect is made."""
        return getattr(self, entry.word.lower())(entry.of)

    def queue_of(self, source):
        """The held events of a source's queue, and whether there is room for one more."""
        thread = self.threads[source.thread]
        return thread.held, len(thread.held) < thread.made_as.queue

    def push(self, number):
        source = self.sources[number]
        held, has_room = self.queue_of(source)
        if source.next == len(source.readings) or not has_room:
            return False
        held.append(Event(origin_of_source(number, source.accepted % 64), source.readings[source.next]))
        source.next, source.accepted, source.is_refused = source.next + 1, source.accepted + 1, False
        return True

    def refuse(self, number):
        source = self.sources[number]
        if source.next == len(source.readings) or self.queue_of(source)[1]:
            return False
        source.is_refused = True
        return True

    def skip(self, number):
        source = self.sources[number]
        if not source.is_refused:
            return False
        source.next, source.is_refused = source.next + 1, False
        return True

    def tick(self, ticks):
        if self.clock + ticks >= CLOCK:
            return False
        self.clock += ticks
        return True

    def scan(self, _):
        if any(thread.is_finished for thread in self.threads):
            return False
        self.current = Scan(self.clock, set())
        return True

    def look(self, number):
        thread = self.threads[number]
        if self.current is None or number in self.current.looked or thread.running is not None or thread.held:
            return False
        self.current.looked.add(number)
        return True

    def release(self, number):
        thread = self.threads[number]
        if not thread.is_finished:
            return False
        thread.held.pop(0)
        thread.is_finished = False
        return True

    def item(self, number):
        """The lowest pipe that the thread reads and that has an item."""
        return next((at for at, pipe in enumerate(self.pipes) if pipe.made_as.reader == number and pipe.items), None)

    def timer(self, number):
        """The lowest timer of the thread that is due at the scan's time."""
        return next((at for at, timer in enumerate(self.timers) if timer.thread == number and timer.due is not None and timer.due <= self.current.time), None)

    def pending(self, number):
        thread = self.threads[number]
        if thread.running is not None:
            return thread.event
        if number not in self.current.looked:
            return next(iter(thread.held[thread.is_finished :]), None)
        pipe, timer = self.item(number), self.timer(number)
        if pipe is not None:
            return Event(2 << 56 | pipe << 32 | self.pipes[pipe].taken, self.pipes[pipe].items[0])
        return None if timer is None else Event(3 << 56 | timer << 48 | self.timers[timer].due, self.timers[timer].due & LOW)

    def has_nothing(self, number):
        """A thread that a scan has passed."""
        return number in self.current.looked and self.threads[number].running is None and self.item(number) is None and self.timer(number) is None

    def commit(self, number):
        if self.current is None or self.pending(number) is None:
            return False
        priority = self.program.threads[number].priority
        if not all(self.has_nothing(at) for at, thread in enumerate(self.program.threads) if thread.priority > priority):
            return False
        self.serve(number, self.pending(number))
        self.commits, self.current = self.commits + 1, None
        return True

    def serve(self, number, event):
        thread, time = self.threads[number], self.current.time
        was_idle = thread.running is None
        if was_idle:
            thread.first = time
            self.consume(event)
        expires = thread.made_as.expires
        if not was_idle and expires is not None and time - thread.first > expires:
            thread.expired += 1
            return self.end(thread, event)
        try:
            end = self.meaning(number, event)
        except Trap:
            thread.trapped += 1
            return self.end(thread, event)
        self.apply(number, end)
        if end.following is None:
            thread.served += 1
            return self.end(thread, event)
        thread.running, thread.event = end.following, event

    def consume(self, event):
        at = event.origin >> 32 & 255 if event.origin >> 56 == 2 else event.origin >> 48 & 255
        if event.origin >> 56 == 2:
            self.pipes[at].items.pop(0)
            self.pipes[at].taken += 1
        if event.origin >> 56 == 3:
            timer = self.timers[at]
            timer.due = timer.due + timer.period if timer.period else None

    def meaning(self, number, event):
        thread = self.threads[number]
        task = next(it for it in self.program.tasks if it.thread == number) if thread.running is None else self.program.tasks[thread.running]
        room = thread.made_as.log - sum(output[1] == number for output in self.outputs)
        return Meaning(task, Served(event.origin, event.value, self.current.time), thread.state, [pipe.room for pipe in self.pipes], room)

    def apply(self, number, end):
        self.threads[number].state = end.state
        self.outputs += [(self.commits + 1, number, value) for value in end.outputs]
        for pipe, value in end.sent:
            self.pipes[pipe].items.append(value)
        for timer, at, ticks in end.set:
            self.timers[timer].due = at
            self.timers[timer].period = self.timers[timer].period if ticks is None else ticks

    def end(self, thread, event):
        thread.running, thread.event, thread.is_finished = None, None, event.is_of_queue
