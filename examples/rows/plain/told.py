"""What the words of a board tell, in today's form or in the earlier one."""

import json
from typing import NamedTuple

from plain import bounds
from plain.access import LOW
from plain.words import EARLIER, EXPIRED, FINISHED, OUTPUTS, SERVED, STAMP, TODAY, TRAPPED, Places


class Source(NamedTuple):
    next: int
    accepted: int | None  # the earlier form doesn't tell it


class Told:
    def __init__(self, program, words, form=TODAY):
        self.program, self.words, self.form, self.places = program, words, form, Places(program)
        self.threads, self.sources = range(len(program.threads)), range(len(program.sources))

    def committed(self, thread, word):
        """Where a word of a thread's committed copy stands."""
        return self.places.page_word(thread, word, self.words[self.places.commit(thread)])

    def head(self, thread, word):
        return self.words[self.committed(thread, word)]

    def slot(self, thread, position):
        """The full slot of a position, none where its slot has no full word of it."""
        full = self.form.read(self.words[self.places.slot(thread, position)])
        return full if full is not None and full.position == position else None

    def has_finished(self, thread):
        return self.head(thread, FINISHED) > 0 and self.slot(thread, self.head(thread, FINISHED) - 1) is not None

    def released(self, thread):
        return self.head(thread, FINISHED) - self.has_finished(thread)

    def held(self, thread):
        """The events of a queue that aren't released, in order."""
        events = []
        for position in range(self.released(thread), self.released(thread) + self.program.threads[thread].queue):
            full = self.slot(thread, position)
            if full is None or full.source >= len(self.program.sources) or self.program.sources[full.source] != thread:
                break
            events.append(full)
        return events

    def published(self, thread):
        return self.released(thread) + len(self.held(thread))

    def own(self, source):
        """The held events of a source."""
        return [full for full in self.held(self.program.sources[source]) if full.source == source]

    def first_is_finished(self, source):
        """Whether the first held event of its queue is the source's, and finished."""
        thread = self.program.sources[source]
        return self.has_finished(thread) and [full.source for full in self.held(thread)[:1]] == [source]

    def source(self, source):
        src, ack = self.words[self.places.src(source)], self.words[self.places.ack(source)]
        if self.form is EARLIER:
            return Source(max(src, ack, *(full.number + 1 for full in self.own(source))), None)
        accepted, reading = src & LOW, src >> 32
        one_more = any(full.number == accepted % 64 for full in self.own(source)) or ack == (accepted + 1) % 64
        return Source(reading + one_more, accepted + one_more)

    def outputs(self):
        """Stamp, thread and value of each, in the order of stamps."""
        words = [(self.words[self.places.log(thread, number)], thread) for thread in self.threads for number in range(self.head(thread, OUTPUTS))]
        return sorted(((word >> 32, thread, word & LOW) for word, thread in words), key=lambda output: output[0])

    def commits(self):
        """The newest stamp."""
        return max(self.head(thread, STAMP) for thread in self.threads)


def account_of(board, charges, flags):
    """What a text tells of a run besides its outputs."""
    told, program, entries = Told(board.program, board.words), board.program, board.entries
    account = {"charges": charges, "clock": board.words[told.places.clock], "commits": told.commits(), "threads": [], "sources": []}
    for number, thread in enumerate(program.threads):
        served, trapped, expired = (told.head(number, word) for word in (SERVED, TRAPPED, EXPIRED))
        account["threads"].append({"name": thread.name, "served": served, "trapped": trapped, "expired": expired, "held": len(told.held(number))})
    for number in told.sources:
        pushed, refused = entries.count(f"Push S{number}"), entries.count(f"Refuse S{number}")
        account["sources"].append({"next": told.source(number).next, "pushed": pushed, "refused": refused})
    if "--bounds" in flags:
        account |= {"boot": bounds.boot(program), "round": bounds.a_round(program)}
    return account


def lines_of(account):
    lines = ["thread {name} served {served} trapped {trapped} expired {expired} held {held}".format(**it) for it in account["threads"]]
    lines += ["source S{0} next {next} pushed {pushed} refused {refused}".format(number, **it) for number, it in enumerate(account["sources"])]
    lines.append("clock {clock} commits {commits} charges {charges}".format(**account))
    return lines + (["bounds boot {boot} round {round}".format(**account)] if "boot" in account else [])


def run_text(board, charges, flags):
    """What `run` writes of a board after its last charge."""
    outputs, threads = Told(board.program, board.words).outputs(), board.program.threads
    lines = [f"{stamp} {threads[thread].name} {value}" for stamp, thread, value in outputs]
    account = account_of(board, charges, flags)
    lines += [json.dumps(account, separators=(",", ":"), sort_keys=True)] if "--json" in flags else lines_of(account)
    if "--journal" in flags:
        lines += ["[journal]", *board.entries]
    text = "".join(f"{line}\n" for line in lines)
    return text + image_text(board.words) if "--image" in flags else text


def image_text(words, form=TODAY, width=8):
    rows = [words[at : at + width] for at in range(0, len(words), width)]
    header = "[image2]" if form is TODAY else "[image1]"
    return f"{header}\n" + "".join(" ".join(f"{word:016x}" for word in row) + "\n" for row in rows)
