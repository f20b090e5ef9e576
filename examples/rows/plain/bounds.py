"""How many turns of the kernel the parts of a charge take at most."""


def boot(program):
    return 4 * len(program.threads) + 2


def scan(program):
    return 4 * len(program.threads) + 3 * len(program.pipes) + len(program.timers) + 3


def service(program, task):
    return 32 * program.threads[task.thread].pages + 6 * task.limit + 18


def a_round(program):
    """A scan and the service of what it finds."""
    return scan(program) + max(service(program, task) for task in program.tasks)
