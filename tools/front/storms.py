"""The storms of several seeds, one after the other: ./psci storm --seeds FIRST..LAST."""
import subprocess

from . import running
from .programs import Progress


def run(program, seeds, board, count):
    """Makes the storm of each seed; stops at the first fault."""
    first, last = seeds
    path, rest = program(), [f"--count={count}", *([f"--board={board}"] if board else [])]
    going = Progress("the seeds", is_silent=False).over(range(first, last + 1), last + 1 - first)
    for seed in going:
        process = subprocess.Popen(["psci", "storm", f"--seed={seed}", *rest], executable=path,
                                   stdout=subprocess.PIPE, stderr=subprocess.PIPE)
        line, said = process.communicate()
        if process.returncode:
            going.close()
            running.tell(said, lambda number: None if number else board)
            return process.returncode if process.returncode > 0 else 128 - process.returncode
        status = running.write(f"seed {seed} {line.decode()}")
        if status:
            return status
    return 0
