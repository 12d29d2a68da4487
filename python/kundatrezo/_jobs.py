"""Jobs and the calls on them."""

from __future__ import annotations

import os
from dataclasses import dataclass
from math import prod
from pathlib import Path
from typing import Any, NamedTuple, Optional, Sequence, Union
from warnings import warn

import numpy as np
import numpy.typing as npt

from . import _circuit
from ._library import Given, Lendable, Words, binary64, bits, call, read_words, whole, written_words

Lists = Sequence[Sequence[int]]
"""Lists of outcomes."""
Seed = Optional[int]


def outcome_lists(job: Job, what: str, lists: Lists) -> Words:
    """Lists of outcomes as one list, with the length of each before it, in rising order: that in which a caller names them plays no part. `Refused`
    by 17 if one is not recorded, or named twice. A job is none of the things that are easily taken for one."""
    if not isinstance(job, Job):
        remedy = "circuit.job() makes one" if callable(getattr(job, "job", None)) else "Job.read(path) reads one"
        raise TypeError(f"job is to be a Job, and not of {type(job).__name__}: {remedy}")
    if any(np.ndim(list_) != 1 for list_ in lists):
        raise TypeError(f"{what}s is to be a list of lists of outcomes, such as [[4, 5]]")
    parts = [part for list_ in lists for part in (read_words([len(list_)]), read_words(list_))]
    return call("outcomes", job.text, what.encode(), np.concatenate([read_words(()), *parts])).words


@dataclass(frozen=True)
class Rows:
    """What a run leaves. A row has a bit for each shot: shot s is bit s mod 64 of word s // 64. `bits` makes booleans of it. Rows have the shape of a
    job, and a run takes only those of its own job's shape. `x` and `z` are the parts of the frames, a row for each qubit. `deltas` has a row for each
    outcome of the header: where a bit is 1, the outcome differs from the noiseless one; and `totals`, in how many shots it differs. `shots` are those
    of the job whose run left them, 0 before the first run."""

    x: Words
    z: Words
    deltas: Words
    totals: Words
    shots: int = 0

    @staticmethod
    def of(job: Job) -> Rows:
        """Cleared rows for a job. Further runs of it, and of other jobs of the same shape, can use them again."""
        x, z, deltas, totals = (np.zeros(shape, dtype=np.uint64) for shape in Rows._shapes(job))
        return Rows(x, z, deltas, totals)

    @staticmethod
    def _shapes(job: Job) -> list[tuple[int, ...]]:
        return [(job.qubits, job.row_words), (job.qubits, job.row_words), (job.outcomes, job.row_words), (job.outcomes,)]

    def lent(self, job: Job) -> list[Words]:
        """The arrays, for a run of a job: in larger ones its bits would stand in the wrong places. Too few words are the engine's to refuse."""
        lent = [written_words(rows) for rows in (self.x, self.z, self.deltas, self.totals)]
        for name, shape in zip(("x", "z", "deltas", "totals"), Rows._shapes(job)):
            given = getattr(self, name)
            if given.shape != shape and given.size >= prod(shape):
                raise ValueError(f"rows.{name} has shape {given.shape}, and this job needs {shape}: Rows.of(job) makes rows for it")
        return lent


class FaultTable(NamedTuple):
    """The table of single faults, a row for each element of each noise line: the `line` of the noise in the job, from 1, the `element` of its
    distribution, from 0, and in `flips` a column for each group: whether this fault alone changes the sum of the group's outcomes."""

    line: npt.NDArray[np.int64]
    element: npt.NDArray[np.int64]
    flips: npt.NDArray[np.bool_]


@dataclass(frozen=True, init=False, repr=False)
class Job:
    """A job that passed the checks; one that does not is refused by `Refused`. docs/JOBS.md has the language of jobs.

    It has its `text` and numbers: the `qubits`, `outcomes` and `shots` of its header; `recorded`, the outcomes that lines record, those of id 0 to
    recorded - 1; and `lines`, that of the header included.

    >>> job = Job("op=job qubits=1 outcomes=1 shots=2\\nop=i shot=1 x=0 z=-\\nop=o x=- z=0 id=0\\n")
    >>> bits(job.run().deltas, job.shots).tolist()
    [[False, True]]
    """

    __slots__ = ("text", "qubits", "outcomes", "shots", "recorded", "lines")
    text: bytes
    qubits: int
    outcomes: int
    shots: int
    recorded: int
    lines: int

    def __init__(self, text: Union[str, bytes]) -> None:
        if not isinstance(text, (str, bytes, bytearray, memoryview)):
            remedy = ": Job.read(path) reads a file" if isinstance(text, os.PathLike) else ""
            raise TypeError(f"the text of a job is to be a str or bytes, and not of {type(text).__name__}{remedy}")
        given = text.encode() if isinstance(text, str) else bytes(text)
        numbers = call("examine", given, isinstance(text, str)).words.tolist()
        for name, value in zip(self.__slots__, (given, *numbers)):
            object.__setattr__(self, name, value)

    @staticmethod
    def read(path: Union[str, os.PathLike[str]]) -> Job:
        """The job of a file."""
        return Job(Path(path).read_bytes())

    def __repr__(self) -> str:
        return f"<Job qubits={self.qubits} outcomes={self.outcomes} shots={self.shots} lines={self.lines}>"

    def __str__(self) -> str:
        return self.text.decode()

    def __reduce__(self) -> tuple[type[Job], tuple[bytes]]:
        return Job, (self.text,)

    @property
    def row_words(self) -> int:
        """The words of a row of bits, one for each shot."""
        return -(-self.shots // 64)

    def circuit(self) -> _circuit.Circuit:
        """The lines as a builder, to which more can be added. Its `job()` has the very bytes of this one."""
        return _circuit.Circuit(self)

    def with_shots(self, shots: int) -> Job:
        """The same job with another number of shots in its header."""
        return self.circuit().job(shots)

    def run(
        self, words: Lendable = (), *, seed: Seed = None, second: Lendable = (), second_seed: Seed = None, base: int = 0,
        noiseless: Optional[Lendable] = None, rows: Optional[Rows] = None,
    ) -> Rows:  # fmt: skip
        """Run all shots, and leave frames, deltas and totals in `rows`, or in new ones.

        `words` is the main list, `second` with `base` the one that correlated lines read; with `seed` and `second_seed` they are made as far as they
        are needed, as the program's options of these names do. `noiseless` has the outcomes' noiseless bits in the layout of deltas; without it they
        are 0. Arrays of uint64 are lent without a copy.
        """
        rows = Rows.of(self) if rows is None else rows
        call("run", self.text, *rows.lent(self), *self._draws(words, seed, second, second_seed, noiseless), base)
        object.__setattr__(rows, "shots", self.shots)
        return rows

    def settle(
        self, words: Lendable = (), *, seed: Seed = None, second: Lendable = (), second_seed: Seed = None, base: int = 0,
        noiseless: Optional[Lendable] = None,
    ) -> Job:  # fmt: skip
        """The job with each noise line replaced by the injections that a run with the same words makes."""
        return Job(call("settle", self.text, *self._draws(words, seed, second, second_seed, noiseless), base).text)

    def _draws(self, words: Lendable, seed: Seed, second: Lendable, second_seed: Seed, noiseless: Optional[Lendable]) -> list[Any]:
        """What a call draws from: noiseless bits, and the words of each list, or None, and its seed."""
        shape = (self.outcomes, self.row_words)
        if noiseless is not None and np.ndim(noiseless) > 1 and np.shape(noiseless) != shape:
            raise ValueError(f"noiseless bits have shape {np.shape(noiseless)}, and this job needs {shape}")
        if any(number is not None and np.size(list_) for list_, number in ((words, seed), (second, second_seed))):
            raise ValueError("a list is given, or made from a seed, not both")
        if seed is not None and seed == second_seed:
            raise ValueError("the words of the two lists are to differ: give another seed")
        bits_ = read_words(np.zeros(shape, dtype=np.uint64) if noiseless is None else noiseless)
        main, other = (read_words(list_) if number is None else None for list_, number in ((words, seed), (second, second_seed)))
        return [bits_, main, whole(seed or 0, "a seed"), other, whole(second_seed or 0, "a seed")]

    def walk(self, shot: int, set: Sequence[int]) -> int:
        """How many of a job's injections and flips in the shot change the parity of a set of outcomes, by carrying its observable back. The job has
        no noise: settle it first."""
        return call("walk", self.text, whole(shot, "shot"), outcome_lists(self, "set", [set])[1:]).count

    def annotate(self, p: float) -> Job:
        """The job with depolarizing noise of probability p before each measurement and after each gate."""
        annotated = Job(call("annotate", self.text, binary64(p)).text)
        if p < 0:
            warn("p is below zero: no fault will fall", stacklevel=2)
        return annotated

    def locations(self) -> int:
        """The number of fault locations: twice the qubits of the lines that `annotate` gives noise; a qubit that control and target share
        counts for both."""
        return call("locations", self.text).count

    def correlation(self) -> None:
        """See that noise lines of one correlation have one size; `Refused` by 19 where they do not."""
        call("correlation", self.text)

    def fault_table(self, groups: Lists) -> FaultTable:
        """Which groups of outcomes each possible fault flips, as the only one: a row for each element of each noise line. There may be any number of
        groups and of noise lines: the crate asks the engine for several tables."""
        rows = call("fault_table", self.text, outcome_lists(self, "group", groups)).words.reshape(-1, 2 + -(-len(groups) // 64))
        return FaultTable(rows[:, 0].astype(np.int64), rows[:, 1].astype(np.int64), bits(rows[:, 2:], len(groups)))


def make_job(qubits: int, outcomes: int, shots: int, lines: int, seed: int) -> Job:
    """A job with this number of lines after its header that the engine makes from a seed, not 0: the same on any machine."""
    return Job(call("make", qubits, outcomes, shots, lines, seed).text)


@dataclass
class Mechanism:
    """A way in which a fault may fall: the noise `line` in the job, from 1, the first if several fall together; the `element` of its distribution,
    from 0; its probability `p`, in shots in which the condition of the line, if it has one, holds; which detectors, then observables, it `flips`."""

    line: int
    element: int
    p: float
    flips: npt.NDArray[np.bool_]


def mechanisms(job: Job, detectors: Lists, observables: Lists = ()) -> list[Mechanism]:
    """Each element of each noise line with its probability and what it flips. Lines of one correlation that draw alike have theirs in common."""
    groups = len(detectors) + len(observables)
    rows = _model(job, detectors, observables).words.reshape(-1, 3 + -(-groups // 64))
    probabilities = rows[:, 2].copy().view(np.float64)
    return [Mechanism(*found) for found in zip(rows[:, 0].tolist(), rows[:, 1].tolist(), probabilities.tolist(), bits(rows[:, 3:], groups))]


def error_model(job: Job, detectors: Lists, observables: Lists = ()) -> str:
    """The noise of a job as a detector error model, in the text that decoders read: what the program's `dem` writes. Errors of a model are
    independent, while of a noise line's elements one falls at most. Conditions are left out: p is that of shots in which they hold. Lines of one
    correlation that do not draw alike are taken for independent. docs/FAULTS.md has more."""
    return _model(job, detectors, observables).text.decode()


def _model(job: Job, detectors: Lists, observables: Lists) -> Given:
    lists = outcome_lists(job, "detector", detectors), outcome_lists(job, "observable", observables)
    return call("error_model", job.text, *lists)
