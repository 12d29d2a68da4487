"""Logical error rates of two codes, sampled, with their intervals, beside exact ones for distance 3.

    /usr/bin/python3 rates.py [--plot FILE] [--shots N] [--seed N] [--p P ..] [--threads N]

A script in cells, as notebooks have them: editors that know `# %%` run it cell by cell.
"""

# %% What is used
from __future__ import annotations

import argparse
import os
from concurrent.futures import ThreadPoolExecutor
from typing import Callable

import exact
import matplotlib
import numpy as np
from codes import Experiment, repetition, surface
from matching import MOST_AT_BEST, Matching

from kundatrezo import Counts, error_model, sample

CODES = {
    "repetition, distance 3": (repetition, 3, 3),
    "repetition, distance 5": (repetition, 5, 5),
    "surface, distance 3": (surface, 3, 2),
    "surface, distance 5": (surface, 5, 2),
}


# %% The options
def arguments() -> argparse.Namespace:
    parser = argparse.ArgumentParser(description="Logical error rates of the repetition and the rotated surface code, with a plot.")
    parser.add_argument("--plot", default="rates.png", metavar="FILE", help="write the plot to this file (%(default)s)")
    parser.add_argument("--shots", type=int, default=100_000, metavar="N", help="the shots of each point (%(default)s)")
    parser.add_argument("--seed", type=int, default=2026, metavar="N", help="the seed of the first point; the others count on from it (%(default)s)")
    probabilities = [0.002, 0.004, 0.008, 0.016]
    parser.add_argument("--p", type=float, nargs="+", default=probabilities, metavar="P", help="the probabilities of a fault (%(default)s)")
    parser.add_argument("--threads", type=int, default=os.cpu_count(), metavar="N", help="the threads that sample (%(default)s)")
    return parser.parse_args()


options = arguments()


# %% Decoders: the likeliest guess by exact probabilities for distance 3, matching by the error model for distance 5
class Likeliest:
    """Counts the shots in which the likeliest guess is wrong."""

    def __init__(self, probabilities: np.ndarray) -> None:
        self.flips = exact.decoder(probabilities)

    def __call__(self, parities: np.ndarray) -> np.ndarray:
        pattern = parities[:, :-1] @ (1 << np.arange(parities.shape[1] - 1))
        return self.flips[pattern] != parities[:, -1]


def sampled(experiment: Experiment, seed: int, count: Callable[[np.ndarray], np.ndarray]) -> Counts:
    """The shots in which the decoder is wrong."""
    with ThreadPoolExecutor(options.threads) as threads:
        return sample(experiment.job, options.shots, seed, experiment.sets, threads, count=count)


# %% Rates. Each point has a seed of its own: with one seed all would read the same words.
print(f"{'code':24} {'p':>6} {'seed':>6} {'rate':>10} {'low':>10} {'high':>10} {'exact':>10}")
rates: dict[str, list[tuple[Counts, float]]] = {name: [] for name in CODES}
points = [(name, p) for name in CODES for p in options.p]
for seed, (name, p) in enumerate(points, options.seed):
    code, distance, rounds = CODES[name]
    experiment = code(distance, rounds, p)
    note = ""
    if distance == 3:
        probabilities = exact.distribution(experiment.job, experiment.sets)
        counts, true = sampled(experiment, seed, Likeliest(probabilities)), exact.failure(probabilities)
    else:
        matching = Matching(error_model(experiment.job, experiment.detectors, [experiment.observable]))
        counts, true = sampled(experiment, seed, matching), float("nan")
        if matching.greedy_shots:
            note = f"  {matching.greedy_shots} shots with more than {MOST_AT_BEST} flipped detectors: matched greedily, not at best"
    rates[name].append((counts, true))
    low, high = counts.counted_interval
    print(f"{name:24} {p:6.3f} {seed:6} {counts.counted_rate:10.3e} {low:10.3e} {high:10.3e} {true:10.3e}{note}", flush=True)

# %% The plot: points with their intervals, and exact rates as lines
matplotlib.use("Agg")
import matplotlib.pyplot as plt  # noqa: E402

figure, axes = plt.subplots()
for place, (name, sampled_points) in enumerate(rates.items()):
    intervals = np.array([counts.counted_interval for counts, _ in sampled_points])
    middle = np.array([counts.counted_rate for counts, _ in sampled_points])
    spread = np.abs(intervals.T - middle)
    axes.errorbar(options.p, middle, yerr=spread, fmt="o", capsize=3, color=f"C{place}", label=f"{name}, sampled")
    if not np.isnan(sampled_points[0][1]):
        axes.plot(options.p, [true for _, true in sampled_points], color=f"C{place}", label=f"{name}, exact")
axes.set(xscale="log", yscale="log", xlabel="probability of a fault", ylabel="logical error rate per shot")
axes.legend(fontsize="x-small")
figure.savefig(options.plot)
print(f"the plot is {options.plot}")
