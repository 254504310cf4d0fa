"""What the scripts of bench/ share: programs are made of C, commands are started, and a fault is a line."""
import argparse
import contextlib
import os
import resource
import shutil
import subprocess
import sys
import tempfile

HERE = os.path.dirname(os.path.realpath(__file__))


def positive(word):
    """The number that an option has."""
    if not (word.isascii() and word.isdigit() and 0 < int(word) < 1_000_000):
        raise argparse.ArgumentTypeError(f"{word!r} is no number from 1 to 999999")
    return int(word)


def made_of_c(room, name, *libraries):
    """A program of bench/NAME.c, or None where the compiler has nothing to make it with."""
    if not shutil.which("cc"):
        sys.exit("bench: the command cc is not on the PATH; a small program in C starts the others")
    words = ["cc", "-O2", "-o", f"{room}/{name}", f"{HERE}/{name}.c", *libraries]
    made = subprocess.run(words, stdout=subprocess.DEVNULL, stderr=subprocess.DEVNULL)
    return f"{room}/{name}" if made.returncode == 0 else None


class Measure:
    """Starts commands by a small program (measure.c), whose own memory is not told of theirs."""

    def __init__(self, room):
        self.out, self.program = f"{room}/said", made_of_c(room, "measure")
        if not self.program:
            sys.exit("bench: cc does not compile bench/measure.c")

    def run(self, words, most=8):
        """Seconds of processor time, the most memory in MB, the status (`most` at most), and what the command said."""
        shown = subprocess.run([self.program, self.out, *words], stdout=subprocess.PIPE, check=True).stdout.split()
        with open(self.out, encoding="ascii", errors="replace") as file:
            said = file.read()
        seconds, memory, status = float(shown[0]), int(shown[1]) / 1000, int(shown[2])
        if status > most:
            last = (said.strip().splitlines() or ["nothing"])[-1]
            sys.exit(f"bench: {' '.join(words)} ended with status {status} and said last: {last!r}")
        return seconds, memory, status, said


@contextlib.contextmanager
def folder():
    """A folder for the time of a run, in which programs that fail leave no core."""
    resource.setrlimit(resource.RLIMIT_CORE, (0, 0))
    with tempfile.TemporaryDirectory() as room:
        yield room


def program_at(path):
    """The full path of a program."""
    if not (os.path.isfile(path) and os.access(path, os.X_OK)):
        sys.exit(f"bench: there is no program {path}; ./build makes it")
    return os.path.realpath(path)


def run(main):
    """Runs a script's main; what goes wrong is told in a line."""
    try:
        main()
    except KeyboardInterrupt:
        sys.exit("bench: stopped")
    except subprocess.CalledProcessError as error:
        sys.exit(f"bench: {error.cmd[0]} ended with status {error.returncode}")
    except OSError as error:
        sys.exit(f"bench: {error.filename}: {error.strerror}")
    except (ValueError, subprocess.SubprocessError) as error:
        sys.exit(f"bench: {error}")
