"""Circuits of two codes, made by the builder: rounds of syndrome measurements with ancillas, then all data qubits are measured in Z.

Each data qubit is depolarized as a round begins; `annotate` adds noise after each gate and before each measurement. A *detector* is a set of outcomes whose sum
is 0 where no fault falls, the *observable* the set whose sum a decoder is to guess.
"""

from __future__ import annotations

from dataclasses import dataclass
from typing import Optional

from kundatrezo import Circuit, Job


@dataclass(frozen=True)
class Experiment:
    """A noisy memory of some rounds."""

    job: Job
    detectors: list[list[int]]
    observable: list[int]

    @property
    def sets(self) -> list[list[int]]:
        """The detectors, and last the observable."""
        return [*self.detectors, self.observable]


def repetition(distance: int, rounds: int, p: float) -> Experiment:
    """The repetition code against bit flips: data qubits in a row, and an ancilla for the parity of each two neighbours."""
    data = list(range(distance))
    checks = [[place, place + 1] for place in range(distance - 1)]
    return _memory(data, z_checks=checks, x_checks=[], logical=[0], rounds=rounds, p=p)


def surface(distance: int, rounds: int, p: float) -> Experiment:
    """The rotated surface code: data qubits on a square, and an ancilla for each of the plaquettes between them, X and Z in turn.

    The edges above and below have X plaquettes of two qubits, those at the sides Z plaquettes. So the logical Z goes along a row, and X errors that go unseen
    along a column. A fault of an ancilla spreads to the last two qubits of its plaquette, which lie across the logical operator that it could become a part of.
    """

    def place(row: int, column: int) -> Optional[int]:
        return row * distance + column if 0 <= row < distance and 0 <= column < distance else None

    x_checks, z_checks = [], []
    for row in range(distance + 1):
        for column in range(distance + 1):
            is_x = (row + column) % 2 == 1
            north_west, north_east = place(row - 1, column - 1), place(row - 1, column)
            south_west, south_east = place(row, column - 1), place(row, column)
            order = [north_west, north_east, south_west, south_east] if is_x else [north_west, south_west, north_east, south_east]
            corners = [qubit for qubit in order if qubit is not None]
            at_side = column in (0, distance)
            if len(corners) == 4 or (len(corners) == 2 and is_x != at_side):
                # None keeps the turn of a corner that is missing
                (x_checks if is_x else z_checks).append(order)
    return _memory(list(range(distance**2)), z_checks, x_checks, logical=list(range(distance)), rounds=rounds, p=p)


def _memory(data: list[int], z_checks: list, x_checks: list, logical: list[int], rounds: int, p: float) -> Experiment:
    circuit = Circuit()
    ancillas = list(range(len(data), len(data) + len(z_checks) + len(x_checks)))
    checks = list(zip(ancillas, [*z_checks, *x_checks], [False] * len(z_checks) + [True] * len(x_checks)))
    measured: list[list[int]] = []
    for _ in range(rounds):
        for qubit in data:
            circuit.depolarize(p, qubit)
        circuit.reset(*ancillas)
        for ancilla, _, is_x in checks:
            if is_x:
                circuit.gate("Hadamard", ancilla)
        for turn in range(max(len(corners) for _, corners, _ in checks)):
            for ancilla, corners, is_x in checks:
                if turn < len(corners) and corners[turn] is not None:
                    circuit.gate("ControlledX", *((ancilla, corners[turn]) if is_x else (corners[turn], ancilla)))
        for ancilla, _, is_x in checks:
            if is_x:
                circuit.gate("Hadamard", ancilla)
        measured.append([circuit.measure({ancilla: "Z"}) for ancilla in ancillas])
    final = [circuit.measure({qubit: "Z"}) for qubit in data]
    detectors = []
    for round_ in range(rounds + 1):
        for place, corners in enumerate(z_checks):
            before = [measured[round_ - 1][place]] if round_ else []
            now = [measured[round_][place]] if round_ < rounds else [final[qubit] for qubit in corners if qubit is not None]
            detectors.append(sorted(before + now))
    return Experiment(circuit.job().annotate(p), detectors, [final[qubit] for qubit in logical])
