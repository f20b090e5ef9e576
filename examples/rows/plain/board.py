"""A board by its tables of accesses. An actor is a generator that yields one access after the other and is sent the word that it found; what it does
before the next one belongs to that access, the entry of the journal too. A cut forgets the generators, and so all registers."""

from plain.access import LOW, exchange, load, store
from plain.kernel import Kernel
from plain.words import TODAY, Places


class Board:
    """The words, the journal, and the actors of the charge that runs. `readings` are those of each source from number 0 on."""

    def __init__(self, program, readings, words):
        self.program, self.readings, self.words, self.entries = program, readings, words, []
        self.places = Places(program)

    def cut(self, off):
        self.words[self.places.clock] += off
        self.entries.append(f"Tick {off}")
        self.kernel = Kernel(self).run()
        self.sources = [source(self, number) for number in range(len(self.program.sources))]
        self.wanted = {}

    def turn(self, actor):
        """The next access of an actor: K, T, or S with the number of a source. A source that has settled all its readings makes none."""
        if actor == "T":
            self.words[self.places.clock] += 1
            self.entries.append("Tick 1")
            return
        machine = self.kernel if actor == "K" else self.sources[int(actor[1:])]
        if actor not in self.wanted:
            self.wanted[actor] = next(machine, None)
        access = self.wanted[actor]
        if access is not None:
            self.wanted[actor] = self.resumed(machine, self.perform(access))

    def resumed(self, machine, word):
        try:
            return machine.send(word)
        except StopIteration:
            return None

    def perform(self, access):
        word = self.words[access.address]
        if access.kind == "store" or access.kind == "exchange" and word == access.expected:
            self.words[access.address] = access.value
        return word

    def run(self, charges):
        for charge in charges:
            self.cut(charge.off)
            for actor, count in charge.items:
                for _ in range(count):
                    self.turn(actor)


def source(board, number):
    """The accesses of a source in one charge."""
    places, readings, entries = board.places, board.readings[number], board.entries
    thread = board.program.sources[number]
    queue = board.program.threads[thread].queue
    src, ack, tail = places.src(number), places.ack(number), places.tail(thread)
    word = yield load(src)
    accepted, reading = word & LOW, word >> 32
    was_seen = False
    for position in range(queue):
        full = TODAY.read((yield load(places.slot(thread, position))))
        was_seen |= full is not None and (full.source, full.number) == (number, accepted % 64)
    acknowledged = yield load(ack)
    if reading < len(readings) and (was_seen or acknowledged == (accepted + 1) % 64):
        accepted, reading = accepted + 1, reading + 1
        yield store(src, reading << 32 | accepted)
    while reading < len(readings):
        position = yield load(tail)
        word = yield load(places.slot(thread, position))
        full = TODAY.read(word)
        if full is not None and full.position == position - queue:
            entries.append(f"Refuse S{number}")
            reading += 1
            yield store(src, reading << 32 | accepted)
            entries.append(f"Skip S{number}")
            continue
        empty = TODAY.empty(position)
        made = TODAY.full(position, number, accepted % 64, readings[reading])
        if word != empty or (yield exchange(places.slot(thread, position), empty, made)) != empty:
            yield exchange(tail, position, position + 1)
            continue
        entries.append(f"Push S{number}")
        yield exchange(tail, position, position + 1)
        accepted, reading = accepted + 1, reading + 1
        yield store(src, reading << 32 | accepted)
