"""Exact probabilities of what noise does to sets of outcomes, with no use of the engine: a fault is followed through the lines of a job by a model of its own.

For jobs of Hadamard, ControlledX, resets, measurements of Z on one qubit, and noise of one kind of Pauli or depolarizing noise, as the circuits of codes.py are.
"""

from __future__ import annotations

import struct

import numpy as np
import numpy.typing as npt

from kundatrezo import Job


def distribution(job: Job, sets: list[list[int]]) -> npt.NDArray[np.float64]:
    """The probability of each pattern of the sets' parities, set i being bit i: the sum over all patterns of faults, each by its probability, a noise line at a
    time."""
    lines = [_fields(line) for line in str(job).splitlines()]
    sum_ = np.zeros(2 ** len(sets))
    sum_[0] = 1.0
    patterns = np.arange(len(sum_))
    for place, line in enumerate(lines):
        if line["op"] != "n":
            continue
        p = struct.unpack(">d", bytes.fromhex(line["p"]))[0]
        effects = [_effect(lines[place + 1 :], x, z, sets) for x, z in _elements(line)]
        # elements that do the same are taken together
        shares = np.bincount(effects, minlength=1) / len(effects)
        sum_ = (1 - p) * sum_ + p * sum(shares[effect] * sum_[patterns ^ effect] for effect in np.flatnonzero(shares))
    return sum_


def decoder(probabilities: npt.NDArray[np.float64]) -> npt.NDArray[np.bool_]:
    """For each pattern of all sets but the last whether the last is the likelier to be flipped."""
    half = len(probabilities) // 2
    return probabilities[half:] > probabilities[:half]


def failure(probabilities: npt.NDArray[np.float64]) -> float:
    """How often that guess is wrong."""
    half = len(probabilities) // 2
    return float(np.minimum(probabilities[:half], probabilities[half:]).sum())


def _fields(line: str) -> dict[str, str]:
    return dict(field.split("=") for field in line.split(" "))


def _qubits(text: str) -> list[int]:
    return [] if text == "-" else [int(number) for number in text.split(",")]


def _elements(line: dict[str, str]) -> list[tuple[set[int], set[int]]]:
    if line["d"] == "1":
        return [(set(_qubits(line["x"])), set(_qubits(line["z"])))]
    assert line["d"] == "2"
    qubits = _qubits(line["q"])

    def part(choice: int, bit: int) -> set[int]:
        return {qubit for place, qubit in enumerate(qubits) if choice >> 2 * place + bit & 1}

    return [(part(choice, 0), part(choice, 1)) for choice in range(1, 4 ** len(qubits))]


def _effect(lines: list[dict[str, str]], x: set[int], z: set[int], sets: list[list[int]]) -> int:
    """Which sets a fault flips that falls before these lines."""
    flipped = set()
    for line in lines:
        if line["op"] == "z":
            x.discard(int(line["q"]))
            z.discard(int(line["q"]))
        elif line["op"] == "o":
            assert line["x"] == "-"
            if int(line["z"]) in x:
                flipped.add(int(line["id"]))
        elif line["op"] == "u" and line["g"] == "4":
            qubit = int(line["q"])
            x ^= (exchanged := {qubit} & (x ^ z))
            z ^= exchanged
        elif line["op"] == "u":
            assert line["g"] == "11"
            control, target = _qubits(line["q"])
            x ^= {target} if control in x else set()
            z ^= {control} if target in z else set()
    return sum(1 << place for place, set_ in enumerate(sets) if len(flipped.intersection(set_)) % 2)
