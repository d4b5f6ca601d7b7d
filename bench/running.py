"""Runs a program on a text, within limits of time and memory, and tells what it took. bench/shapes and bench/llc use it."""
import math
import os
import resource
import signal
import tempfile
from dataclasses import dataclass

PROGRAM = os.path.normpath(f"{os.path.dirname(os.path.abspath(__file__))}/../crates/gisel/out/gisel")
MEMORY = 4 << 30  # bytes that a run may take, so that none takes the machine's


@dataclass
class Run:
    """What a run took: seconds of the processor, the program's and the system's for it, and MiB at most; how it ended, by
    its status or 128 more than the signal; and the last line that it said on standard error."""

    seconds: float
    memory: float
    status: int
    said: str

    @property
    def is_stopped(self):
        """Whether its time ran out."""
        return self.status in (128 + signal.SIGXCPU, 128 + signal.SIGKILL)


def begin(words, said, limit):
    """Becomes the program, which says nothing but to `said` and has so many seconds of the processor."""
    resource.setrlimit(resource.RLIMIT_CPU, (limit, limit + 1))
    resource.setrlimit(resource.RLIMIT_AS, (MEMORY, MEMORY))
    resource.setrlimit(resource.RLIMIT_CORE, (0, 0))
    os.dup2(os.open(os.devnull, os.O_WRONLY), 1)
    os.dup2(said.fileno(), 2)
    os.execv(words[0], words)


def run(words, limit):
    """One run of a command, its first word the path of a program, of at most so many seconds of the processor."""
    with tempfile.TemporaryFile() as said:
        child = os.fork()
        if child == 0:
            try:
                begin(words, said, math.ceil(limit))
            finally:
                os._exit(127)
        ended, used = os.wait4(child, 0)[1:]
        said.seek(0)
        lines = said.read().decode(errors="replace").splitlines()
    code = os.waitstatus_to_exitcode(ended)
    status = code if code >= 0 else 128 - code
    return Run(used.ru_utime + used.ru_stime, used.ru_maxrss / 1024, status, lines[-1] if lines else "")


def path_of(program):
    """The absolute path of a program that can be run; without one the script ends."""
    path = os.path.abspath(program)
    if not os.access(path, os.X_OK):
        raise SystemExit(f"There is no program {path}: (cd crates/gisel && rt run -- --version) builds gisel.")
    return path
