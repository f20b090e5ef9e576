"""Boards of two threads with everything that an image may tell, and rows of such a board that is stopped and goes on from its image."""

from image_rows import Case, board_after, case
from plain.earlier import earlier_words
from plain.image import prepared, run_text
from plain.job import read_job
from plain.told import Told, image_text
from plain.words import EARLIER, TODAY, first_words


# Two threads with everything that an image may tell: chains of a reading, an item and a timer, pipes both ways, events that are held and finished.
PAIR = """[program]
thread lo priority 1 queue 2 state 9 log 8 expires 90
thread hi priority 2 queue 4 state 1 log 8
source lo
source hi
source lo
pipe up 2 from lo to hi
pipe down 1 from hi to lo
timer beat thread hi due 900 period 7
timer once thread lo off
task take thread lo limit 20
ev r0
li r1 8
st r0 r1
send up r2 r0
out r0
next give
end
task give thread lo limit 20
ev r1
li r2 5
arm once r2 r2
done
end
task serve thread hi limit 20
kind r1
li r2 1
eq r2 r1 r2
ev r0
out r0
out r1
jz r2 over
send down r2 r0
over:
done
end
[sensors]
"""
PAIR_READINGS = "S0 7 8 9 10\nS1 40 41 42\nS2 300\n"
PAIR_TURNS = ["S0*9", "K*400", "S0*5", "S2*9", "K*60", "S1*21", "K*1000", "T*9", "K*300"]
STOPPED_TURNS = ["S0*9", "K*70", "S2*9", "K*31", "S1*13", "K*60", "S0*7", "T*2", "K*33"]  # 234
LATER_TURNS = ["S1*20", "K*300", "S0*9", "T*9", "S2*5", "K*400"]
PAIR_GOES_ON = PAIR + "S0 60 61\nS1 62\nS2 63\n[power]\ncharge 3 S0*20 S1*20 S2*20 K*300\ncharge 0 T*9 K*100\n"
LO, HI = 0, 1
NAMES = {TODAY: "today", EARLIER: "earlier"}
END = (1 << 64) - 1


def turns_of(items):
    return [actor for item in items for actor, _, count in [item.partition("*")] for _ in range(int(count))]


def charge_of(turns):
    """The line of a charge with these turns, those of one actor after another joined."""
    items = []
    for actor in turns:
        if items and items[-1][0] == actor:
            items[-1][1] += 1
        else:
            items.append([actor, 1])
    return "charge 0" + "".join(f" {actor}*{count}" for actor, count in items) + "\n"


def pair_behind(entry, number):
    """The board of the pair of threads behind an entry, the number-th one from 0 on."""
    job = read_job(PAIR + PAIR_READINGS + "[power]\ncharge 0\n")
    board = prepared(job, first_words(job.program))
    board.cut(0)
    for actor in turns_of(PAIR_TURNS):
        board.turn(actor)
        if board.entries.count(entry) > number:
            return board
    raise AssertionError(entry)


def with_words(told, changes):
    words = list(told.words)
    for address, word in changes.items():
        words[address] = word
    return words


def slot(told, thread, behind):
    """The address of the slot so many positions behind the first held event, and its event."""
    position = told.released(thread) + behind
    return told.places.slot(thread, position), told.slot(thread, position)


def rows_of_going_on():
    """A board that is stopped after each of its first 234 turns, and goes on from its image in both forms as if it hadn't been."""
    turns, later = turns_of(STOPPED_TURNS), turns_of(LATER_TURNS)
    for stop in range(len(turns) + 1):
        first, last = (f"[power]\n{charge_of(part)}" for part in (turns[:stop], turns[stop:] + later))
        stopped = board_after(PAIR + PAIR_READINGS + first)
        made = run_text(stopped, 1, ["--image"])
        yield Case(f"a_board_is_stopped_after_any_turn {stop}", ["run", "--image"], PAIR + PAIR_READINGS + first, made)
        whole = board_after(PAIR + PAIR_READINGS + first + last.removeprefix("[power]\n"))
        whole.entries = whole.entries[len(stopped.entries) :]
        told = Told(whole.program, stopped.words)
        listed = [numbers[told.source(source).next :] for source, numbers in enumerate(whole.readings)]
        sensors = "".join(f"S{source} {' '.join(map(str, numbers))}\n" for source, numbers in enumerate(listed))
        name, job = f"a_run_that_goes_on_is_the_run_that_never_stopped {stop}", PAIR + sensors + last
        yield Case(name, ["run", "--journal", "--image"], job + image_text(stopped.words), run_text(whole, 1, ["--journal", "--image"]))
        earlier = case(f"{name} earlier", job + image_text(earlier_words(stopped), EARLIER), "--journal", "--image")
        is_behind = any(told.source(source).next != stopped.words[told.places.src(source)] >> 32 for source in told.sources)
        if not is_behind and not earlier.answer.startswith(run_text(whole, 1, ["--journal"])):
            raise AssertionError(earlier.name)
        yield earlier
