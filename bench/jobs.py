#!/usr/bin/env python3
"""Writes jobs at the limits into a folder: NAME.job for each, and a file `names` that has a line with the name, the number of accesses and the mode of each."""

import pathlib
import sys

sys.dont_write_bytecode = True
sys.path.insert(0, str(pathlib.Path(__file__).resolve().parent.parent / "examples/rows"))

from plain.job import read_job
from plain.told import image_text
from plain.words import OUTPUTS, STAMP, Places, first_words

from kinds import KINDS, ONE, readings, task, text_of, thread

folder = sys.argv[1]
TURNS = 4194304  # the most that a job may list
SWEEP = 8192  # the most of one that is swept
BYTES = 4194304  # the longest text of a job
CHARGES = 4096


def job(name, program, sensors, power, image=""):
    text = text_of(program, sensors, power, image)
    assert len(text) <= BYTES, name
    with open(f"{folder}/{name}.job", "w") as out:
        out.write(text)
    turns = 0
    for line in power.splitlines():
        for item in line.split()[2:]:
            turns += int(item.split("*")[1]) if "*" in item else 1
    assert turns <= TURNS, name
    names.append(f"{name} {turns} run")


names = []
for name, kind in KINDS.items():
    job(name, *kind(TURNS))

# Sixteen sources with as many readings as the text has room for, on two queues of 32 places.
fed = thread("a", 1, 32) + thread("b", 2, 32) + "source a\nsource b\n" * 8 + task("sum", "a") + task("add", "b")
turn = " ".join(f"S{n}*5" for n in range(16)) + " K*600 "
rounds = (TURNS - 16 * 40) // (16 * 5 + 600)
power = "charge 0 " + " ".join(f"S{n}*40" for n in range(16)) + " " + turn * rounds + "\n"
room = (BYTES - len(fed) - len(power) - 200) // (2 * 16)
job("sources", fed, "".join(readings(n, min(65535, room)) for n in range(16)), power)

# As many charges as a job may have, each cut in the middle of a service.
each = TURNS // CHARGES
job("charges", ONE, readings(0, 65535), f"charge 1 S0*40 T*1 K*{each - 41}\n" * CHARGES)

# A sweep of as many turns as one may have, all of them in the first charge: no turn of it is made in the first run, one in the second, and so on.
job("sweep", ONE, readings(0, 1), f"charge 0 S0*9 K*{SWEEP - 9}\n")
names[-1] = f"sweep {SWEEP * (SWEEP + 1) // 2} sweep"

# A hostile text: as many labels in one task as it has room for, with names as short as they can be, and jumps to the last ones.
LETTERS = "abcdefghijklmnopqrstuvwxyzABCDEFGHIJKLMNOPQRSTUVWXYZ"
LATER = LETTERS + "0123456789_"


def label(number):
    size, count = 1, len(LETTERS)
    while number >= count:
        number -= count
        size, count = size + 1, count * len(LATER)
    name = ""
    for _ in range(size - 1):
        number, digit = divmod(number, len(LATER))
        name = LATER[digit] + name
    return LETTERS[number] + name


labels, left = [], BYTES - 80000
while left > 0:
    labels.append(label(len(labels)))
    left -= len(labels[-1]) + 2
jumps = "".join(f"jz r0 {name}\n" for name in reversed(labels[-4095:]))
job("labels", thread("a", 1) + "task t thread a limit 9\n" + "".join(f"{name}:\n" for name in labels) + jumps + "done\nend\n", "", "charge 0 K*1000\n")

# Another: 256 tasks that go on with the last one, over and over.
tasks = "".join(f"task task_{n:03} thread a limit 9\n" + "next task_255\n" * 16 + "end\n" for n in range(256))
job("tasks", thread("a", 1) + tasks, "", "charge 0 K*1000\n")

# The image of the greatest board: sixteen threads whose logs are full, with the outputs of all of them in turn.
THREADS, LOG = 16, 4096
great = "".join(f"thread t{n} priority {n} queue 32 state 256 log {LOG}\nsource t{n}\n" for n in range(THREADS))
great += "".join(f"pipe p{n} 64 from t{n} to t{n + 1}\n" for n in range(8))
great += "".join(f"task k{n} thread t{n} limit 9\n" + "li r0 0\n" * 255 + "done\nend\n" for n in range(THREADS))
program = read_job(f"[program]\n{great}").program
places, words = Places(program), first_words(program)
for t in range(THREADS):
    for n in range(LOG):
        words[places.log(t, n)] = THREADS * n + t + 1 << 32
    words[places.page_word(t, STAMP, 0)] = THREADS * (LOG - 1) + t + 1
    words[places.page_word(t, OUTPUTS, 0)] = LOG
job("image", great, "", "charge 0 K*1000\n", image_text(words))

with open(f"{folder}/names", "w") as out:
    out.write("\n".join(names) + "\n")
