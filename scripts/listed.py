"""Runs eqc on the pairs that a list has, for `spread --list`: some at a time, and tells of each how it ended."""
import os
import shlex
import subprocess
import time
from concurrent.futures import ThreadPoolExecutor
from dataclasses import dataclass
from pathlib import Path

from junit import Case, xml
from netlist import Fault, shown

EQUIVALENT, DIFFERS, REFUSED, STOPPED, FAULT, VACUOUS = 0, 1, 2, 3, 4, 6
# The status of a list is the first of these that a pair has, else that eqc can't be run.
WORST_FIRST = (FAULT, REFUSED, VACUOUS, STOPPED, DIFFERS, EQUIVALENT)


@dataclass
class Ended:
    """How the run of a pair ended."""

    words: list
    status: int
    printed: str
    told: str
    seconds: float

    def name(self):
        return shlex.join(self.words)

    def line(self):
        """What is told of it: its report without assignments."""
        heads = [it for it in self.printed.split("\n") if it.startswith("differs at ")] if self.status == DIFFERS else []
        said = ", ".join(heads) or self.printed.strip() or self.told.strip().split("\n")[0] or f"status {self.status}"
        return f"{self.name()}: {said} ({self.seconds:.1f} s)"

    def case(self):
        """What JUnit is told: equivalent passed, different failed, and all that came to no verdict is an error."""
        if self.status == EQUIVALENT:
            return Case(self.name(), seconds=self.seconds)
        message = self.printed.partition("\n")[0] or f"status {self.status}"
        kind = "failure" if self.status == DIFFERS else "error"
        return Case(self.name(), kind, message, self.printed + self.told, self.seconds)


def pairs_in(path):
    """The words of each line of a list: a text or two, and options. A `#` at the beginning of a word begins a comment."""
    try:
        text = Path(path).read_text(encoding="utf-8", errors="surrogateescape")
    except OSError as error:
        raise Fault(f"{path}: {error.strerror}") from None
    for number, line in enumerate(text.split("\n"), 1):
        try:
            words = shlex.split(line, comments=True)
        except ValueError as error:
            raise Fault(f"{path}: line {number}: {error}") from None
        if words:
            yield words


def compared(program, options, folder, words):
    """A run on a pair, whose files are named from the list's folder. Its own options take the place of those for all."""
    own = {it.partition("=")[0] for it in words if it.startswith("--")}
    options = [it for it in options if it.partition("=")[0] not in own]
    start = time.monotonic()
    env = {**os.environ, "EQC_BUILD": "no"}
    # What is at fault is told, since nobody looks at a single run.
    all_words = [program, "--explain", *options, *words]
    done = subprocess.run(all_words, cwd=folder, env=env, stdin=subprocess.DEVNULL, capture_output=True)
    return Ended(words, done.returncode, shown(done.stdout), shown(done.stderr), time.monotonic() - start)


def run_list(given, options):
    """Runs all pairs of a list, `jobs` at a time, and tells of each in the list's order. The status is the worst one."""
    pairs, ends = list(pairs_in(given.list)), []
    folder = os.path.dirname(os.path.abspath(given.list))
    with ThreadPoolExecutor(given.jobs) as lanes:
        for ended in lanes.map(lambda it: compared(given.eqc, options, folder, it), pairs):
            ends.append(ended)
            print(ended.line().encode(errors="surrogateescape").decode("utf-8", "backslashreplace"), flush=True)
    if given.junit:
        text = xml(str(given.list), [it.case() for it in ends])
        Path(given.junit).write_text(text, encoding="utf-8", errors="backslashreplace")
    found = {it.status for it in ends}
    strange = found - set(WORST_FIRST)
    return min(strange) if strange else next((it for it in WORST_FIRST if it in found), EQUIVALENT)
