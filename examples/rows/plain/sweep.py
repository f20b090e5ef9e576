"""What `sweep` writes of a job: a line for each number of turns of its first charge, behind which that charge is cut."""

from plain.image import Fault, prepared, start
from plain.told import Told


def first_turns(items, turns):
    """The first so many turns of a charge's items."""
    made = []
    for actor, count in items:
        made.append((actor, min(turns, count)))
        turns -= min(turns, count)
    return made


def row_text(told, turns):
    held = sum(len(told.held(thread)) for thread in told.threads)
    return f"cut {turns} outputs {len(told.outputs())} commits {told.commits()} held {held}\n"


def answer_of_sweep(job):
    """The line of each run, or the fault of the job's image."""
    words = start(job)
    if isinstance(words, Fault):
        return words
    first, *others = job.charges
    rows = []
    for turns in range(sum(count for _, count in first.items) + 1):
        board = prepared(job, words)
        board.run([first._replace(items=first_turns(first.items, turns)), *others])
        rows.append(row_text(Told(board.program, board.words), turns))
    return "".join(rows)
