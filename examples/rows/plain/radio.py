"""What `radio` writes of a job and the script of a radio: the outputs that the base has saved, and an account."""

import re
from typing import NamedTuple

from plain.claim import lines, parted
from plain.image import Fault, prepared, start
from plain.job import lines_of, read_job
from plain.told import Told

LINES, NUMBER = 65536, 4194304  # the most lines of a script, the greatest number in one
WITH_NUMBER, ALONE = ("grow", "tobase", "tonode"), ("send", "rewind", "nodecut", "save", "basecut")


class Data(NamedTuple):
    number: int
    output: tuple

    @property
    def bytes(self):
        stamp, thread, value = self.output
        return b"D" + self.number.to_bytes(4, "big") + stamp.to_bytes(8, "big") + thread.to_bytes(1, "big") + value.to_bytes(4, "big")


class Ack(NamedTuple):
    count: int

    @property
    def bytes(self):
        return b"A" + self.count.to_bytes(4, "big")


class Radio:
    def __init__(self, outputs):
        self.outputs, self.grown, self.acked, self.cursor = outputs, 0, 0, 0
        self.saved, self.fresh, self.air = [], [], []

    def grow(self, number):
        self.grown = min(self.grown + number, len(self.outputs))

    def send(self):
        if self.cursor < self.grown:
            self.air.append(Data(self.cursor, self.outputs[self.cursor]))
            self.cursor += 1

    def rewind(self):
        self.cursor = self.acked

    nodecut = rewind

    def packet(self, number, kind):
        """The packet of this number, if it is of this kind."""
        return next((it for it in self.air[number : number + 1] if isinstance(it, kind)), None)

    def tobase(self, number):
        packet = self.packet(number, Data)
        if packet is not None and packet.number == len(self.saved) + len(self.fresh):
            self.fresh.append(packet.output)

    def tonode(self, number):
        packet = self.packet(number, Ack)
        if packet is not None:
            self.acked, self.cursor = max(self.acked, packet.count), max(self.cursor, packet.count)

    def save(self):
        self.saved, self.fresh = self.saved + self.fresh, []
        self.air.append(Ack(len(self.saved)))

    def basecut(self):
        self.fresh = []

    def keeps(self):
        """What holds after each event."""
        have = self.saved + self.fresh
        return have == self.outputs[: len(have)] and len(have) <= self.grown and self.acked <= len(self.saved)


def cause_of(words, number):
    """What is wrong with a line of a script, the line of this number of those with words; none where nothing is."""
    takes = words[0] in WITH_NUMBER
    if not takes and words[0] not in ALONE:
        return "UnknownWord"
    if number > LINES:
        return "OverLimit"
    if takes and len(words) == 1:
        return "Missing"
    if takes and not re.fullmatch("[0-9]{1,10}", words[1], re.ASCII):
        return "BadNumber"
    if takes and int(words[1]) > NUMBER:
        return "OverLimit"
    return "UnknownWord" if len(words) > 1 + takes else None


def played(outputs, script):
    radio = Radio(outputs)
    for words in script:
        getattr(radio, words[0])(*map(int, words[1:]))
        if not radio.keeps():
            raise AssertionError(f"{words}: {vars(radio)}")
    return radio


def radio_text(program, radio):
    saved = [f"{stamp} {program.threads[thread].name} {value}\n" for stamp, thread, value in radio.saved]
    sent = sum(isinstance(packet, Data) for packet in radio.air)
    return "".join(saved) + f"base {len(radio.saved)} fresh {len(radio.fresh)} acked {radio.acked} sent {sent} air {len(radio.air)}\n"


def answer_of_radio(text):
    """What `radio` writes of a text that has no fault in front of its image, or the first fault."""
    before, script = parted(text.encode(), b"[radio]")
    job = read_job(before.decode())
    words = start(job)
    if isinstance(words, Fault):
        return words
    if script is None:
        return Fault(len(lines(text.encode())) + 1, "Missing")
    header = len(lines(before)) + 1
    events = lines_of(script.decode())
    for number, line in enumerate(events, 1):
        cause = cause_of(line.words, number)
        if cause is not None:
            return Fault(header + line.number, cause)
    board = prepared(job, words)
    board.run(job.charges)
    radio = played(Told(board.program, board.words).outputs(), [line.words for line in events])
    return radio_text(job.program, radio)
