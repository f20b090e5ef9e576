"""Kinds of great jobs: for a number of turns the program of each, its readings and its charges."""

STATE = "li r1 0\nld r2 r1\nev r3\nadd r2 r2 r3\nst r2 r1\nout r2\ndone\nend\n"


def thread(name, priority, places=2, log=8):
    return f"thread {name} priority {priority} queue {places} state 1 log {log}\n"


def task(name, owner, code=STATE, limit=100):
    return f"task {name} thread {owner} limit {limit}\n{code}"


def readings(source, number):
    return f"S{source} " + " ".join(["7"] * number) + "\n"


ONE = thread("a", 1) + "source a\n" + task("sum", "a")


def idle(turns):
    """One thread whose queue stays empty after its first event."""
    return ONE, readings(0, 1), f"charge 0 S0*9 K*{turns - 9}\n"


def busy(turns):
    """An event a service, over and over."""
    rounds = (turns - 4) // 78
    return ONE, readings(0, rounds + 1), "charge 0 S0*4" + " S0*5 K*73" * rounds + "\n"


def compute(turns):
    """Long tasks of plain arithmetic."""
    code = "li r2 1\n" + "add r3 r3 r2\n" * 4000 + "done\nend\n"
    rounds = (turns - 4) // 4105
    program = thread("a", 1) + "source a\n" + task("count", "a", code, 4096)
    return program, readings(0, rounds + 1), "charge 0 S0*4" + " S0*5 K*4100" * rounds + "\n"


def threads(turns):
    """Sixteen idle threads, each with a queue of 32 places."""
    many = "".join(thread(f"t{n}", n, 32) for n in range(16)) + "".join(task(f"k{n}", f"t{n}") for n in range(16))
    return many, "", f"charge 0 K*{turns}\n"


KINDS = {kind.__name__: kind for kind in (idle, busy, compute, threads)}


def text_of(program, sensors, power, image=""):
    return f"[program]\n{program}[sensors]\n{sensors}[power]\n{power}{image}"
