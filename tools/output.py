"""How a tool writes what it made, and what it says where that fails."""
import os
import sys


def write(tool, made):
    """Writes bytes to standard output. The status: 0, or 2 where they cannot be written."""
    try:
        sys.stdout.buffer.write(made)
        sys.stdout.buffer.flush()
        return 0
    except BrokenPipeError:
        pass  # who read the output has ended, and says why itself
    except OSError as fault:
        print(f"{tool}: cannot write: {fault.strerror}", file=sys.stderr)
    # Python writes what is left once more at its end; here nothing more may fail.
    os.dup2(os.open(os.devnull, os.O_WRONLY), sys.stdout.fileno())
    return 2
