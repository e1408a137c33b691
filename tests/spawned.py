"""Runs of a program that cost little, so that thousands of them fit into a test: no pipe, no thread. Needs Linux."""
import os
import select

# After so many seconds a run counts as one that has no end: far more than any takes, on a busy machine too.
SECONDS = 600
DEVNULL = os.open(os.devnull, os.O_RDONLY | os.O_CLOEXEC)


class Runner:
    """Runs a program again and again, in one process, with standard output and standard error kept in memory.

    `seconds` is how long a run may take; then it is ended, and its status is None.
    """

    def __init__(self, program, seconds=SECONDS):
        self.program, self.seconds, self.environment = os.fspath(program), seconds, dict(os.environ)
        self.kept = [os.memfd_create(name, os.MFD_CLOEXEC) for name in ("output", "error")]

    def close(self):
        for descriptor in self.kept:
            os.close(descriptor)

    def run(self, words, environment=None, output=None, more=()):
        """The status, standard output and standard error; `output` is a descriptor that takes the place of standard output, and
        `more` are pairs of a descriptor and the number under which the program gets it besides. A run that a signal ends has
        the signal's number, negated, as its status.
        """
        for descriptor in self.kept:
            os.ftruncate(descriptor, 0)
            os.lseek(descriptor, 0, os.SEEK_SET)
        standard = DEVNULL, self.kept[0] if output is None else output, self.kept[1]
        actions = [(os.POSIX_SPAWN_DUP2, descriptor, number) for number, descriptor in enumerate(standard)]
        actions += [(os.POSIX_SPAWN_DUP2, descriptor, number) for descriptor, number in more]
        environment = self.environment if environment is None else environment
        process = os.posix_spawn(self.program, [self.program, *words], environment, file_actions=actions)
        status = self.status_of(process)
        return (status, *(os.pread(descriptor, os.fstat(descriptor).st_size, 0) for descriptor in self.kept))

    def status_of(self, process):
        handle = os.pidfd_open(process)
        try:
            ended, _, _ = select.select([handle], [], [], self.seconds)
        finally:
            os.close(handle)
        if not ended:
            os.kill(process, 9)
        status = os.waitstatus_to_exitcode(os.waitpid(process, 0)[1])
        return status if ended else None
