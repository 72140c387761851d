"""Tries the edits of one crate, in rounds and then alone, as parallel tasks."""
import contextlib
import os
import re
import shutil
import tempfile
from dataclasses import dataclass

from checking import Checker, only, own_failure, reached_the_prover
from edits import Round, rounds_of
from kit import MEMORY_OVER, must_fail, rt

ONE_JOB = ["--jobs", "1"]
# The number of lines of a crate that take about as long to check as one edit of it. A round with more edits begins earlier.
LINES_OF_AN_EDIT = 150
# Rattle's message about a goal without an answer, when a proof file answers others.
UNPROVED = re.compile(r"^note: (src/\S+:\d+:\d+: it is not proved that .*)", re.MULTILINE)
# Rattle's message about a name that no function has.
UNKNOWN = re.compile(r"has no function `([^`]+)`")


@dataclass(frozen=True)
class Outcome:
    """The result of one edit."""

    name: str
    refused: bool
    why: str

    def line(self, crate):
        return f"{'refused' if self.refused else 'NOT REFUSED'} {crate.name}/{self.name}: {self.why}"


def in_round(crate, label, ran, together):
    """Returns the outcomes of the round's edits whose own function failed."""
    if not reached_the_prover(ran, together.texts):
        return {}
    found = {}
    for edit in together.edits:
        for function in edit.functions:
            told = own_failure(ran.stdout, crate, function)
            if told:
                found[edit] = Outcome(edit.name, True, f"{label}, {function}: {told[:160]}")
    return found


def unproved(ran, edit, together):
    """Returns the outcome of the only edit of a round, if a goal lacks its proof. With one edit, it does not matter whose goal it
    is."""
    goal = UNPROVED.search(ran.stdout)
    if not goal or not reached_the_prover(ran, together.texts):
        return {}
    return {edit: Outcome(edit.name, True, f"alone, {edit.functions[0]}: {goal[1][:160]}")}


def by_itself(crate, edit):
    """Tries an edit from scratch, as `rt must-fail` does.

    It counts as refused if the prover refuses a contract, not if the prover reaches a limit, or if only a proof file names what is
    gone."""
    refused, text = must_fail(crate, str(edit.path), ONE_JOB)
    counts = refused and "only because a proof file names" not in text
    return Outcome(edit.name, counts, f"alone: {text.partition(': ')[2]}")


@contextlib.contextmanager
def copy_of(seed, name):
    """Yields a copy of the seed, next to it, for one check."""
    over = f"{os.path.dirname(seed)}/{name}"
    shutil.copytree(seed, over)
    try:
        yield over
    finally:
        shutil.rmtree(over, ignore_errors=True)


class Tries:
    """The tries of some edits of one crate. Each uses a copy of the seed, which is the result of checking their functions without the
    edits."""

    def __init__(self, crate, edits, checker: Checker):
        self.crate = crate
        self.edits = edits
        self.checker = checker
        self.rounds, self.rest = rounds_of(edits, crate.folder)
        self.room = tempfile.TemporaryDirectory(prefix=f"edits-{crate.name}-")
        self.seed = None
        self.unknown = ""

    def tasks(self, end):
        """Returns the tasks in the form that rt runs in parallel. The last one calls `end` with the outcomes."""
        name, lines, memory = self.crate.name, self.crate.count(rb"\n"), rt.need(self.crate)
        seed, rounds = (name, "proof"), [(name, "round", number) for number in range(1, len(self.rounds) + 1)]
        found = {seed: ([], lines, memory, lambda _given, jobs: self.make_seed(jobs))}
        for key, together in zip(rounds, self.rounds):
            call = lambda _given, _jobs, key=key, together=together: self.try_round(f"round {key[2]}", together)
            found[key] = ([seed], LINES_OF_AN_EDIT * len(together.edits), MEMORY_OVER * memory, call)
        last = lambda given, _jobs: end(self.end([given[it] for it in rounds]))
        found[name, "rest"] = ([seed, *rounds], LINES_OF_AN_EDIT * len(self.rest), memory, last)
        return found

    def make_seed(self, jobs):
        """Proves the functions without the edits, so that a later refusal of one is due to its edit."""
        seed = f"{self.room.name}/seed"
        os.mkdir(seed)
        functions = {function for it in self.rounds for function in it.functions}
        ran = self.checker.checked(self.crate, {}, ["--jobs", str(jobs), *only(functions)], seed)
        if ran.returncode == 0:
            self.seed = seed
        self.unknown = next(iter(UNKNOWN.findall(ran.stdout)), "")

    def try_round(self, label, together):
        """Returns the outcomes of the edits that are clearly refused in this round."""
        if not self.seed:
            return {}
        with copy_of(self.seed, label) as over:
            flags = [*ONE_JOB, *only(together.functions)]
            return in_round(self.crate, label, self.checker.checked(self.crate, together.texts, flags, over), together)

    def end(self, rounds):
        """Returns the outcomes of all edits after the rounds. Edits that were not clearly refused are tried alone."""
        found = {edit: it for outcomes in rounds for edit, it in outcomes.items()}
        tried = [found.get(it) or self.alone(it) for it in self.edits]
        self.room.cleanup()
        return tried

    def alone(self, edit):
        """Tries an edit in a round of its own, and from scratch if that does not clearly refuse it."""
        if self.unknown:
            return Outcome(edit.name, False, f"not tried: an edit names {self.unknown}, which is no function")
        together = Round()
        if self.seed and edit not in self.rest and together.takes(edit, self.crate.folder):
            with copy_of(self.seed, "alone") as over:
                ran = self.checker.checked(self.crate, together.texts, [*ONE_JOB, *only(together.functions)], over)
            found = in_round(self.crate, "alone", ran, together) or unproved(ran, edit, together)
            if found:
                return found[edit]
        return by_itself(self.crate, edit)
