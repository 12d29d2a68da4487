"""Any number of shots of a job, in blocks with words of their own, and their counts: those of the program's `sample` and `merge`, by the crate."""

from __future__ import annotations

import os
from collections import deque
from concurrent.futures import Executor, Future
from dataclasses import dataclass
from math import ceil
from pathlib import Path
from typing import Any, Callable, Iterable, Iterator, Optional, Union
from warnings import warn
from weakref import finalize

import numpy as np
import numpy.typing as npt

from ._jobs import Job, Lists, outcome_lists
from ._library import MAX_SHOTS, Lendable, Words, bits, call, read_words, whole

DRAWS = "xorshift"
"""The rule by which `sample` draws, as a text of counts names it (docs/SAMPLING.md, 'Blocks and streams')."""

Bytes = npt.NDArray[np.uint8]
Floats = npt.NDArray[np.float64]
Count = Callable[[npt.NDArray[np.bool_]], npt.ArrayLike]
Part = tuple[int, int]
# What is sampled: it goes to each worker, which opens a sampling by it.
_Plan = tuple[Any, ...]

# Blocks of a task at most, and tasks that an executor is given ahead.
_TASK, _AHEAD = 256, 64


def wilson(totals: npt.ArrayLike, shots: int) -> tuple[Floats, Floats]:
    """Wilson's score interval at 95 percent of the rates of totals among shots: its lower and its upper ends. Of no shots nothing is known: 0 to 1.

    >>> [float(end.round(4)) for end in wilson(10, 100)]
    [0.0552, 0.1744]
    """
    rates = _rates(np.asarray(totals), whole(shots, "shots"))
    return rates[:, 1].reshape(np.shape(totals)), rates[:, 2].reshape(np.shape(totals))


def _rates(totals: Lendable, shots: int) -> Floats:
    """For each total among shots a row: its rate, and the two ends of its interval."""
    return call("rates", read_words(totals), shots).words.view(np.float64).reshape(-1, 3)


@dataclass(frozen=True, eq=False)
class Counts:
    """In how many shots outcomes and the parities of sets of outcomes are flipped. Counts are equal if their texts are. Those of other parts of a
    sample, and those of other seeds, are added by `+` and `sum`.

    `totals` has for each outcome of the header the shots that flip it, among all counted `shots`, `rates` their part of these, and `intervals`
    Wilson's interval of that, a row of its two ends; the same with `set_` is of the parity of each of the `sets`. `counted` are the shots that the
    caller's own function counts, None if there is none. `seeds` are those of all samples. `missing` says what is missing of a sample of which not all
    parts are counted, and is empty if nothing is. `job` is None if the counts were read without it.

    >>> job = Job("op=job qubits=1 outcomes=1 shots=1\\nop=n p=3fe0000000000000 corr=- cond=- parity=0 d=1 x=0 z=- size=1\\nop=o x=- z=0 id=0\\n")
    >>> parts = [sample(job, 10_000, seed=1, part=(place, 3)) for place in (1, 2, 3)]
    >>> sum(parts) == sample(job, 10_000, seed=1) == Counts.of_text(sum(parts).text())
    True
    """

    saved: str
    shots: int
    totals: Words
    rates: Floats
    intervals: Floats
    set_totals: Words
    set_rates: Floats
    set_intervals: Floats
    counted: Optional[int]
    seeds: tuple[int, ...]
    sets: tuple[tuple[int, ...], ...]
    missing: str
    job: Optional[Job] = None

    @staticmethod
    def read(path: Union[str, os.PathLike[str]], job: Optional[Job] = None) -> Counts:
        """The counts of a file, in which `text` was saved, here, by the program or by the Rust crate."""
        return Counts.of_text(Path(path).read_bytes().decode(errors="replace"), job)

    @staticmethod
    def of_text(text: str, job: Optional[Job] = None) -> Counts:
        """The counts of a text, and with their job, if it is given. A text that is cut off or was changed is a ValueError."""
        found = call("counts_read", text.encode(), b"" if job is None else job.text)
        shots, rest, lists = int(found.words[0]), found.words[1:], []
        while rest.size:
            lists.append(rest[1 : 1 + int(rest[0])])
            rest = rest[1 + int(rest[0]) :]
        counted, seeds, *sets = (tuple(list_.tolist()) for list_ in lists[2:])
        of_outcomes, of_sets = ((totals, _rates(totals, shots)[:, 0], _rates(totals, shots)[:, 1:]) for totals in lists[:2])
        return Counts(text, shots, *of_outcomes, *of_sets, counted[0] if counted else None, seeds, tuple(sets), found.text.decode(), job)

    def text(self) -> str:
        """The counts as they are saved: what the program's `sample` prints, and its `merge`, `Counts.of_text` and the Rust crate read."""
        return self.saved

    @property
    def seed(self) -> int:
        """The seed of a sample; an error if counts of several were added."""
        if len(self.seeds) > 1:
            raise ValueError("these counts have several seeds: see `seeds`")
        return self.seeds[0]

    def _counted_rates(self) -> list[float]:
        if self.counted is None:
            raise ValueError("no function counted these shots: `sample` takes one as count=")
        return [float(number) for number in _rates([self.counted], self.shots)[0]]

    @property
    def counted_rate(self) -> float:
        """The part of the shots that the caller's own function counts."""
        return self._counted_rates()[0]

    @property
    def counted_interval(self) -> tuple[float, float]:
        """Wilson's interval of that rate."""
        _, low, high = self._counted_rates()
        return low, high

    def __eq__(self, other: object) -> bool:
        return isinstance(other, Counts) and self.saved == other.saved

    def __hash__(self) -> int:
        return hash(self.saved)

    def __add__(self, other: Counts) -> Counts:
        """The sum with counts of other shots: other parts of a sample, or samples of other seeds, of the same job and sets."""
        if not isinstance(other, Counts):
            return NotImplemented
        return Counts.of_text(call("counts_add", self.saved.encode(), other.saved.encode()).text.decode(), self.job or other.job)

    def __radd__(self, other: Any) -> Counts:
        # `sum` begins with 0
        return self if isinstance(other, int) and other == 0 else self.__add__(other)


def sample(
    job: Job, shots: int, seed: int, sets: Lists = (), executor: Optional[Executor] = None, *, count: Optional[Count] = None, part: Part = (1, 1),
    named: Optional[str] = None, noiseless: Optional[Lendable] = None, noiseless_shots: Optional[Bytes] = None,
) -> Counts:  # fmt: skip
    """Run this number of shots, whatever the job's header has, and count in how many of them each outcome is flipped, and the parity of each set of
    outcomes.

    The shots are run in blocks of 4,096, each with words of its own, made from the seed and the block's number, so that the counts are the same for
    every executor, and those of the program's `sample`. An `executor` is any of concurrent.futures, dask.distributed (`client.get_executor()`) or
    mpi4py.futures; without one the blocks are run here, one after the other. Threads run side by side, since calls release the interpreter's lock.

    `count` is a function, such as a decoder, that is given the parities of the sets by shot, or all outcomes if there are no sets, as an array of
    booleans with a row for each shot, and gives for each shot whether it counts. Processes need one that can be pickled.

    `part` is (I, K) for the I-th of K parts of the shots, from 1, as the program's --part: the counts of all parts, here or on other machines, add up
    to those of the whole. A job with injections or flips needs `named`: "whole", they stand in the shots of the whole that they name, or "block", in
    those of each block.

    `noiseless` has noiseless bits for the job's own shots, in the layout of deltas, which come again: shot s has those of s mod `job.shots`.
    `noiseless_shots` has them for each shot, a row of packed bytes, eight outcomes to a byte, the lowest first. Without them all are 0; a warning
    says so if noise with a condition looks at them.
    """
    plan, given = _planned(job, shots, seed, sets, part, named, noiseless, noiseless_shots)
    sampling = _Sampling(plan)
    blocks, sums = sampling.blocks, sampling.sums
    size = min(_TASK, max(1, ceil(len(blocks) / _AHEAD)))
    tasks = ((first, min(first + size, blocks.stop)) for first in blocks[::size])
    for done in _done(((plan, first, last, _slice(given, first, last), count) for first, last in tasks), executor):
        sums += done
    return Counts.of_text(call("sampling_text", sampling.handle, sums, int(count is not None), int(given is not None)).text.decode(), job)


def sample_shots(
    job: Job, shots: int, seed: int, sets: Lists = (), *, packed: bool = False, part: Part = (1, 1),
    named: Optional[str] = None, noiseless: Optional[Lendable] = None, noiseless_shots: Optional[Bytes] = None,
) -> Iterator[npt.NDArray[Any]]:  # fmt: skip
    """The shots of the same sample, or of its part, block by block, as decoders read them: an array with a row for each shot, and in it a boolean for
    each set, or for each outcome if there are no sets; `packed`, bytes that have eight of them each, the lowest first."""
    plan, given = _planned(job, shots, seed, sets, part, named, noiseless, noiseless_shots)
    sampling = _Sampling(plan)
    for block in sampling.blocks:
        rows = sampling.rows(block, _slice(given, block, block + 1))
        yield rows.view(np.uint8)[:, : ceil(sampling.width / 8)] if packed else bits(rows, sampling.width)


def _planned(
    job: Job, shots: int, seed: int, sets: Lists, part: Part, named: Optional[str], noiseless: Optional[Lendable], shots_bits: Optional[Bytes]
) -> tuple[_Plan, Optional[Bytes]]:
    """What is sampled, tested, and the noiseless bits of each shot, if they are given. Says what conditions look at bits that are not given."""
    rising = outcome_lists(job, "set", sets)
    shots, seed = whole(shots, "shots", least=1), whole(seed, "a seed")
    if not (isinstance(part, tuple) and len(part) == 2 and 1 <= whole(part[0], "part") <= whole(part[1], "part")):
        raise ValueError(f"part is to be (I, K), with I from 1 to K, not {part!r}")
    rows, row = None if noiseless is None else read_words(noiseless), ceil(job.outcomes / 8)
    if noiseless is not None and np.ndim(noiseless) > 1 and np.shape(noiseless) != (shape := (job.outcomes, job.row_words)):
        raise ValueError(f"noiseless bits have shape {np.shape(noiseless)}, and this job needs {shape}")
    plan = (job.text, shots, seed, (named or "").encode(), rows, rising, *part)
    if shots_bits is None:
        for note in call("condition_notes", job.text, int(noiseless is not None)).text.decode().splitlines():
            warn(note, stacklevel=3)
        return plan, None
    if noiseless is not None:
        raise ValueError("noiseless bits come again or are given for each shot, not both")
    if shots_bits.dtype != np.uint8 or shots_bits.ndim != 2 or shots_bits.shape[1] != row or len(shots_bits) < shots:
        raise ValueError(f"noiseless bits are to be {shots} rows of {row} bytes")
    return plan, shots_bits[:shots]


def _slice(given: Optional[Bytes], first: int, last: int) -> Optional[Bytes]:
    return None if given is None else np.ascontiguousarray(given[first * MAX_SHOTS : last * MAX_SHOTS])


def _done(calls: Iterable[tuple[Any, ...]], executor: Optional[Executor]) -> Iterator[Words]:
    """What tasks give, in their order; no more than `_AHEAD` of them are waiting."""
    if executor is None:
        yield from (_task(*call_) for call_ in calls)
        return
    waiting: deque[Future[Words]] = deque()
    try:
        for call_ in calls:
            if len(waiting) >= _AHEAD:
                yield waiting.popleft().result()
            waiting.append(executor.submit(_task, *call_))
        while waiting:
            yield waiting.popleft().result()
    finally:
        for future in waiting:
            future.cancel()


def _task(plan: _Plan, first: int, last: int, given: Optional[Bytes], count: Optional[Count]) -> Words:
    """The counts of some blocks, as `_Sampling.sums` has them."""
    sampling = _Sampling(plan)
    if count is None:
        sampling.run(first, last, given, np.empty(0, dtype=np.uint64))
        return sampling.sums
    for block in range(first, last):
        rows = sampling.rows(block, _slice(given, block - first, block - first + 1))
        counted = np.asarray(count(bits(rows, sampling.width)))
        if counted.shape != (len(rows),):
            raise ValueError(f"count is to say for each of {len(rows)} shots whether it counts, and gives an array of shape {counted.shape}")
        sampling.sums[1] += np.uint64(np.count_nonzero(counted))
    return sampling.sums


class _Sampling:
    """The crate's sampler with the memory of one worker."""

    def __init__(self, plan: _Plan) -> None:
        opened = call("sampling_open", *plan)
        self.handle = opened.count
        finalize(self, call, "sampling_close", self.handle)
        first, last, self.shots, self.width, sums = opened.words.tolist()
        self.blocks = range(first, last)
        # the shots, those that a function counts, the totals of outcomes, those of sets
        self.sums = np.zeros(sums, dtype=np.uint64)

    def run(self, first: int, last: int, given: Optional[Bytes], rows: Words) -> None:
        """Run blocks and add their counts; write the shots of the last as rows, if there is room for them."""
        call("sampling_run", self.handle, first, last, None if given is None else given.reshape(-1), self.sums, rows.reshape(-1))

    def rows(self, block: int, given: Optional[Bytes]) -> Words:
        """Run a block and add its counts; its shots as rows, with a bit for each set, or for each outcome if there are no sets."""
        rows = np.zeros((min(MAX_SHOTS, self.shots - block * MAX_SHOTS), ceil(self.width / 64)), dtype=np.uint64)
        self.run(block, block + 1, given, rows)
        return rows
