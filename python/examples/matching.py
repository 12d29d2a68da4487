"""A small decoder by matching: the likeliest set of errors of a detector error model that explains what detectors see.

Each error flips one detector or two, so that detectors that are flipped are matched with each other, or with the boundary, by chains of errors.
"""

from __future__ import annotations

import re
from math import inf

import numpy as np
import numpy.typing as npt


# Most flipped detectors of which the best of all matchings is found.
MOST_AT_BEST = 12


class Matching:
    """The decoder of a detector error model, by its text, with one observable, L0. It counts for `sample`, and can be pickled."""

    def __init__(self, model: str) -> None:
        detectors = 1 + max(int(number) for number in re.findall(r" D(\d+)", model))
        chances: dict[tuple[int, int, bool], float] = {}
        for p, flips in re.findall(r"^error\((.*)\)(.*)$", model, re.MULTILINE):
            ends = [int(number) for number in re.findall(r" D(\d+)", flips)]
            if len(ends) in (1, 2):
                key = (*(ends + [detectors])[:2], " L0" in flips)
                # errors that do the same are one, which falls where one of them falls and not the other
                before = chances.get(key, 0.0)
                chances[key] = before * (1 - float(p)) + float(p) * (1 - before)
        # the boundary is one place more
        self.far = np.full((detectors + 1, detectors + 1), inf)
        self.flips = np.zeros((detectors + 1, detectors + 1), dtype=bool)
        np.fill_diagonal(self.far, 0.0)
        for (one, other, flips), p in chances.items():
            if -np.log(p / (1 - p)) < self.far[one, other]:
                self.far[one, other] = self.far[other, one] = -np.log(p / (1 - p))
                self.flips[one, other] = self.flips[other, one] = flips
        for middle in range(detectors + 1):
            way = self.far[:, middle, None] + self.far[None, middle, :]
            shorter = way < self.far
            self.far = np.where(shorter, way, self.far)
            self.flips = np.where(shorter, self.flips[:, middle, None] ^ self.flips[None, middle, :], self.flips)
        self.known: dict[bytes, bool] = {}
        # shots of each call with more flipped detectors than are matched at best; threads append
        self._greedy: list[int] = []

    @property
    def greedy_shots(self) -> int:
        """The shots so far that were matched in part by the nearest, one after the other, which is not always the likeliest."""
        return sum(self._greedy)

    def __call__(self, parities: npt.NDArray[np.bool_]) -> npt.NDArray[np.bool_]:
        """In which shots the guess is wrong, by the detectors and the observable of each."""
        self._greedy.append(int(np.count_nonzero(parities[:, :-1].sum(axis=1) > MOST_AT_BEST)))
        seen = np.packbits(parities[:, :-1], axis=1)
        guesses = np.empty(len(seen), dtype=bool)
        for shot, key in enumerate(map(bytes, seen)):
            guess = self.known.get(key)
            if guess is None:
                guess = self.known[key] = self.guess([int(place) for place in np.flatnonzero(parities[shot, :-1])])
            guesses[shot] = guess
        return guesses != parities[:, -1]

    def guess(self, flipped: list[int]) -> bool:
        """Whether the likeliest errors that flip just these detectors flip the observable. Where they are many, the first are matched one by one."""
        parity = False
        while len(flipped) > MOST_AT_BEST:
            one, *others = flipped
            nearest = min([*others, len(self.far) - 1], key=lambda other: self.far[one, other])
            parity ^= bool(self.flips[one, nearest])
            flipped = [other for other in others if other != nearest]
        return parity ^ self._best(flipped)

    def _best(self, flipped: list[int]) -> bool:
        boundary = len(self.far) - 1
        best = [(inf, False)] * 2 ** len(flipped)
        best[0] = (0.0, False)
        for left in range(1, len(best)):
            first = left.bit_length() - 1
            rest = left ^ 1 << first
            cost, parity = best[rest]
            one = flipped[first]
            found = (cost + self.far[one, boundary], parity ^ bool(self.flips[one, boundary]))
            for place in range(first):
                if rest >> place & 1:
                    cost, parity = best[rest ^ 1 << place]
                    cost += self.far[one, flipped[place]]
                    if cost < found[0]:
                        found = (cost, parity ^ bool(self.flips[one, flipped[place]]))
            best[left] = found
        return best[-1][1]
