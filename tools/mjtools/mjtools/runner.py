"""Runs `mj`, keeps its trace, and tells how far it is."""

import subprocess
import sys
import time
from pathlib import Path

from . import advice
from .errors import Unusable
from .explain import explain_line, explain_status
from .writing import whole_file

BLOCK = 1 << 20


class Progress:
    """A line on standard error: steps done, their rate and the time left; renewed in place where it is a terminal."""

    def __init__(self, steps, stream=None):
        self.steps, self.stream = steps, stream or sys.stderr
        self.done = 0
        self._is_terminal = self.stream.isatty()
        self._start = time.monotonic()
        self._next = self._start + (0.2 if self._is_terminal else 10)

    def take(self, block):
        """Looks for the last step in what `mj` has just written."""
        at = block.rfind(b"\nstep ")
        word = block[at + 6 : at + 20].split(b"\n")[0] if at >= 0 else b""
        if word.isdigit():
            self.done = int(word)
        now = time.monotonic()
        if now >= self._next:
            self._next = now + (0.2 if self._is_terminal else 10)
            self._tell(now - self._start)

    def end(self):
        """Clears the line, and gives the seconds that the run took."""
        if self._is_terminal:
            self.stream.write("\r\033[K")
        return time.monotonic() - self._start

    def _tell(self, seconds):
        rate = self.done / seconds
        left = f"{(self.steps - self.done) / rate:.0f} s left" if rate else "waiting for the first step"
        line = f"step {self.done} of {self.steps}, {rate:.0f} steps/s, {left}"
        self.stream.write(f"\r\033[K{line}" if self._is_terminal else f"{line}\n")
        self.stream.flush()


def run(mj, model, steps, trace, tape=None, dual=False, ball=False, inverse=False):
    """Runs `mj` on a model and keeps what it writes in the file `trace`: the status of `mj`, and lines to tell.

    `inverse` runs `mj inverse`, which has neither duals nor balls. A refusal and a run that wrote nothing leave no
    file.
    """
    if inverse and (dual or ball):
        raise Unusable("mj inverse writes neither duals nor balls")
    words = ["inverse" if inverse else "run", "--model", str(model), "--steps", str(steps)]
    words += ["--tape", str(tape)] * (tape is not None) + ["--dual", "yes"] * dual + ["--ball", "yes"] * ball
    progress = Progress(steps)
    try:
        with whole_file(trace) as file:
            status, last = _kept(mj, words, file, progress)
            if status not in (0, 3):
                raise _NoTrace(status, last)
    except _NoTrace as none:
        progress.end()
        return none.status, _why(none.status, none.line, model, tape, words)
    seconds = progress.end()
    done = f"{progress.done} of {steps} steps in {seconds:.2f} s, {Path(trace).stat().st_size} bytes in {trace}"
    return status, [done] + (explain_line(last, model) if status == 3 else [])


class _NoTrace(Exception):
    """A run that gave no trace: its status and the last line that it wrote."""

    def __init__(self, status, line):
        super().__init__(status, line)
        self.status, self.line = status, line


def _kept(mj, words, file, progress):
    """Copies what `mj` writes into the file: its status, and its last line."""
    tail = b""
    with subprocess.Popen([mj, *words], stdout=subprocess.PIPE) as program:
        try:
            while block := program.stdout.read1(BLOCK):
                file.write(block)
                tail = (tail + block)[-4096:]
                progress.take(tail if len(block) < 4096 else block)
        except BaseException:
            program.kill()
            raise
    return program.returncode, tail.rstrip(b"\n").rpartition(b"\n")[2].decode(errors="replace")


def _why(status, line, model, tape, words):
    """Why there is no trace."""
    if status < 0:
        return [f"mj was ended by signal {-status}"]
    if status in (2, 4, 5):
        return explain_line(line, model, [tape] if tape else [], words)
    if status == 6:
        files = [str(path) for path in (model, tape) if path and not Path(path).is_file()]
        return [f"no such file: {path}" for path in files] + explain_status(6)
    if status in advice.STATUSES:
        return explain_status(status)
    raise Unusable(f"mj ended with status {status}, which it doesn't have: is this program mj?")
