"""Runs of floor, what is given to it and what comes of it; and the proved operations, by examples/ask.py."""
import pathlib
import subprocess
import sys

ROOT = pathlib.Path(__file__).resolve().parent.parent
sys.path.append(str(ROOT / "examples"))
from ask import Library  # noqa: E402

LIMIT = 60  # seconds after which a run counts as one that does not end


class NotAnswered(Exception):
    pass


class Runs:
    def __init__(self, program):
        self.program = program

    def run(self, *args, cwd=None, **streams):
        """The last argument goes to standard input where it is bytes."""
        data = args[-1] if isinstance(args[-1], bytes) else b""
        words = args[:-1] if isinstance(args[-1], bytes) else args
        streams = {"input": data, "capture_output": True, **streams}
        return subprocess.run([self.program, *words], cwd=cwd, timeout=LIMIT, **streams)

    def answered(self, *args):
        """What a run prints that is to end with exit code 0 and to say nothing on standard error."""
        done = self.run(*args)
        if (done.returncode, done.stderr) != (0, b""):
            words = " ".join(str(a) for a in args if not isinstance(a, bytes))
            raise NotAnswered(f"floor {words}: exit code {done.returncode}, {done.stderr.decode(errors='replace')}")
        return done.stdout
