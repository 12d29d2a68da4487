"""Random calls of every function of the Python package, with lists of too few words, of just enough and of too many: what tests/python/memory runs
under valgrind. Each array is a block of memory of its own, so that a touch beside it is seen.

usage: random_calls.py N [SEED]; random_calls.py control makes one call that reads past the end of a job, which is to be found
"""

from __future__ import annotations

import random
import struct
import sys
import warnings
from collections import Counter
from typing import Callable

import numpy as np

import kundatrezo
from kundatrezo import Circuit, Job, Refused, Rows
from kundatrezo._library import _functions, _kinds, _List, call

BORDERS = [0, 1, 63, 64, 65, 255, 256, 257, 1023, 1024, 1025, 4095, 4096, 4097, 2**32, 2**63, 2**64 - 1]
PROBABILITIES = [0.0, -0.0, 5e-324, 0.25, 1.0, 1.0000000000000002, float("inf"), float("-inf"), float("nan")]
GATES = ["X", "Hadamard", "SqrtZ", "SqrtX", "SqrtY", "ControlledX", "ControlledZ", "ControlledY", "Swap", "PrepareBell"]


class Calls:
    """Calls by a generator of numbers, and how often each of them was answered or refused."""

    def __init__(self, seed: int) -> None:
        self.random = random.Random(seed)
        self.seen: Counter[str] = Counter()

    def near(self, need: int) -> int:
        """A length around what is needed."""
        return self.random.choice([0, max(need - 1, 0), need, need, need, need, need + 1, need + 7])

    def words(self, count: int) -> np.ndarray:
        return np.array([self.random.choice([self.random.getrandbits(64), self.random.choice(BORDERS)]) for _ in range(count)], dtype=np.uint64)

    def number(self, usual: int) -> int:
        return self.random.randrange(usual) if self.random.random() < 0.9 and usual else self.random.choice(BORDERS)

    def pauli(self, qubits: int) -> dict[int, str]:
        return {qubit: self.random.choice("XYZ") for qubit in self.random.sample(range(qubits), self.random.randrange(min(qubits, 4) + 1))}

    def circuit_job(self) -> Job:
        """A job by the builder, of most kinds of lines."""
        qubits, shots, circuit, outcomes = self.random.choice([2, 3, 9, 70]), self.random.choice([1, 5, 64, 65, 130]), Circuit(), 0
        for _ in range(self.random.randrange(25)):
            pair, p = self.random.sample(range(qubits), 2), self.random.choice(PROBABILITIES[:5])
            corr = self.random.choice([None, None, 0, 3])
            kind = self.random.randrange(12)
            if kind < 3:
                name = self.random.choice(GATES)
                circuit.gate(name, *pair[: 2 if name[0] in "CP" or name == "Swap" else 1])
            elif kind == 3:
                self.random.choice([circuit.pauli, circuit.exponential])(self.pauli(qubits))
            elif kind == 4:
                outcomes = circuit.measure(self.pauli(qubits)) + 1
            elif kind == 5:
                outcomes = circuit.random() + 1
            elif kind == 6:
                circuit.conditional(self.pauli(qubits), range(outcomes))
            elif kind == 7:
                self.random.choice([circuit.reset, circuit.barrier])(*pair)
            elif kind == 8:
                circuit.inject(self.random.randrange(shots), self.pauli(qubits))
            elif kind == 9:
                circuit.depolarize(p, *pair, corr=corr)
            elif kind == 10:
                circuit.fault(p, self.pauli(qubits), corr=corr, cond=range(outcomes))
            else:
                circuit.choose(p, [self.pauli(qubits) for _ in range(3)], self.random.choice([None, [0.5, 0.0, 1.0]]), corr=corr)
        return circuit.job(shots)

    def job(self) -> Job:
        if self.random.random() < 0.5:
            return self.circuit_job()
        numbers = [self.random.choice([1, 4, 9]), self.random.randrange(70), self.random.choice([1, 64, 65]), self.random.randrange(25)]
        return kundatrezo.make_job(*numbers, seed=1 + self.random.getrandbits(60))

    def damaged(self, text: bytes) -> bytes:
        copy = bytearray(text)
        for _ in range(self.random.randrange(3)):
            place, byte = self.random.randrange(len(copy) + 1), bytes([self.random.randrange(256)])
            copy[place : place + self.random.randrange(3)] = self.random.choice([b"", b"\n", b"0", b"18446744073709551616", byte])
        return bytes(copy[: self.random.choice([len(copy), len(copy), self.random.randrange(len(copy) + 1)])])

    def make(self, name: str, function: Callable[[], object]) -> None:
        """Make a call of the package; it answers, refuses, or says that its arguments are wrong."""
        try:
            function()
            self.seen[name] += 1
        except Refused as refusal:
            self.seen[f"{name} refused by {refusal.number}"] += 1
        except ValueError as error:
            self.seen[f"{name} {type(error).__name__}"] += 1

    def package(self) -> None:
        """Every function of the package on one job."""
        job, choose = self.job(), self.random.choice
        self.make("Job", lambda: Job(self.damaged(job.text)))
        outcomes = job.outcomes * job.row_words
        near = choose([self.near, lambda need: need])
        shapes = [(near(count), job.row_words) for count in (job.qubits, job.qubits, job.outcomes)]
        rows = Rows(*(self.words(count * words).reshape(count, words) for count, words in shapes), self.words(near(job.outcomes)))
        lists = {"second": self.words(choice_of(self.random, 400)), "base": self.number(5)}
        lists["noiseless"] = choose([None, self.words(self.near(outcomes))])
        self.make("run", lambda: job.run(self.words(choice_of(self.random, 900)), rows=rows, **lists))
        self.make("run with seeds", lambda: job.run(seed=self.number(9), second_seed=10 + self.number(9)))
        self.make("settle", lambda: job.settle(self.words(choice_of(self.random, 900)), **lists))
        settled: list[Job] = []
        self.make("settle with seeds", lambda: settled.append(job.settle(seed=1, second_seed=2)))
        ids = sorted(self.random.sample(range(job.recorded), self.random.randrange(min(job.recorded, 5) + 1)))
        for text in [*settled, job]:
            self.make("walk", lambda: text.walk(self.number(job.shots), choose([ids, ids, ids[::-1], [self.number(3)]])))
        self.make("annotate", lambda: job.annotate(choose(PROBABILITIES)))
        self.make("locations", job.locations)
        self.make("correlation", job.correlation)
        groups = choose([[], [ids], [ids, [], ids], [ids] * 17, [[self.number(3)]]])
        self.make("fault_table", lambda: job.fault_table(groups))
        self.make("error_model", lambda: kundatrezo.error_model(job, [ids], [ids]))
        self.make("mechanisms", lambda: kundatrezo.mechanisms(job, [ids, []]))
        self.make("sample", lambda: kundatrezo.sample(job, shots=choose([1, 64, 5000]), seed=self.number(9), sets=[ids]).text())
        self.make("sample_shots", lambda: [block.sum() for block in kundatrezo.sample_shots(job, shots=70, seed=3)])
        self.make("circuit", lambda: job.circuit().job())
        self.make("with_shots", lambda: job.with_shots(self.number(70)))
        self.make("fill", lambda: kundatrezo.fill(self.number(9), self.words(self.near(6))))
        self.make("make_job", lambda: kundatrezo.make_job(self.number(9), self.number(9), self.number(70), self.number(30), self.number(9)))
        shots, count = self.number(130) % 4098, self.number(70) % 1026
        turned = self.words(self.near(count * -(-shots // 64))), self.words(self.near(shots * -(-count // 64)))
        none = np.zeros((0, 1), np.uint64)
        self.make("by_shot", lambda: kundatrezo.by_shot(turned[0].reshape(count, -1) if count else none, shots, out=turned[1]))
        self.make("by_outcome", lambda: kundatrezo.by_outcome(turned[1].reshape(shots, -1) if shots else none, count, out=turned[0]))
        self.make("bits and pack_bits", lambda: kundatrezo.pack_bits(kundatrezo.bits(job.run(seed=4, second_seed=5).deltas, job.shots)))

    def library(self) -> None:
        """Every call of the library through the package's own way to it, with any lists and numbers, but for those that free."""
        job = self.job()
        text = choice_of_texts(self.random, job.text, self.damaged(job.text))
        frames, outcomes, list_ = job.qubits * job.row_words, job.outcomes * job.row_words, self.words
        main, second = (self.random.choice([None, list_(choice_of(self.random, most))]) for most in (500, 300))
        draws = [list_(self.near(outcomes)), main, self.number(9), second, self.number(9), self.number(5)]
        p = struct.unpack("<Q", struct.pack("<d", self.random.choice(PROBABILITIES)))[0]
        counts = self.number(70), self.number(70)
        needs = [rows * -(-columns // 64) if max(counts) < 5000 else 3 for rows, columns in (counts, counts[::-1])]
        ids = [number for number in range(job.recorded) if self.random.random() < 0.3]
        flat = np.array([len(ids), *ids, 0], dtype=np.uint64)
        lists = self.random.choice([flat, flat, flat, list_(self.near(3))])
        counted = Circuit().fault(0.25, "X0")
        counted.measure("Z0")
        counts_text = kundatrezo.sample(counted.job(), 70, self.number(9), [[0]], part=(1, self.random.choice([1, 3]))).text().encode()
        arguments = {
            "examine": [text, self.random.randrange(2)],
            "circuit": [text],
            "run": [text, *(list_(self.near(need)) for need in (frames, frames, outcomes, job.outcomes)), *draws],
            "settle": [text, *draws],
            "walk": [text, self.number(job.shots), np.array(ids, dtype=np.uint64)],
            "annotate": [text, p],
            "locations": [text],
            "correlation": [text],
            "by_shot": [*counts, list_(self.near(needs[0])), list_(self.near(needs[1]))],
            "by_outcome": [*counts, list_(self.near(needs[1])), list_(self.near(needs[0]))],
            "fill": [self.number(9), list_(self.near(6))],
            "state_of_seed": [self.number(9)],
            "state_of_block": [self.number(9), self.number(9), self.number(2)],
            "make": [self.number(9), self.number(9), self.number(70), self.number(30), self.number(9)],
            "outcomes": [text, b"set", lists],
            "fault_table": [text, lists],
            "error_model": [text, lists, flat],
            "condition_notes": [text, self.number(2)],
            "counts_read": [self.damaged(counts_text), self.random.choice([b"", text])],
            "counts_add": [counts_text, self.damaged(counts_text)],
            "rates": [list_(self.near(3)), self.number(9)],
            "refusals": [],
            "gates": [],
            "forms": [],
            "declarations": [],
        }
        for name, given in arguments.items():
            self.make(f"kundatrezo_edge_{name}", lambda: call(name, *given))
        assert arguments.keys() | {f"sampling_{name}" for name in ("open", "run", "text", "close")} == _kinds.keys()
        self.make("kundatrezo_edge_sampling", lambda: self.sampling(job, flat))

    def sampling(self, job: Job, sets: np.ndarray) -> None:
        """A sampling, with any lists, from its opening to its closing."""
        shots, list_ = self.random.choice([1, 70, 5000]), self.words
        noiseless = self.random.choice([None, list_(self.near(job.outcomes * job.row_words))])
        opened = call("sampling_open", job.text, shots, self.number(9), b"block", noiseless, sets, 1, 1)
        try:
            first, last, _, _, length = opened.words.tolist()
            packed = self.random.choice([None, bytes(self.near(shots * -(-job.outcomes // 8)))])
            sums = list_(self.near(length)) >> np.uint64(8)
            call("sampling_run", opened.count, first, last, packed, sums, list_(self.near(shots % 4096)))
            call("sampling_text", opened.count, sums, self.random.randrange(2), packed is not None)
        finally:
            call("sampling_close", opened.count)


def choice_of(generator: random.Random, most: int) -> int:
    """How many draws are lent: none, a few, or mostly enough."""
    return generator.choice([0, generator.randrange(most), most, most])


def choice_of_texts(generator: random.Random, whole: bytes, damaged: bytes) -> bytes:
    return generator.choice([whole, whole, damaged])


def control() -> None:
    """Lend a job that is said to be longer than it is."""
    job = np.frombuffer(b"op=job qubits=1 outcomes=0 shots=1\n" * 40, dtype=np.uint8).copy()
    _functions["free"](_functions["examine"](_List(job.ctypes.data + 35 * 39, 200), 0))


def main() -> None:
    if sys.argv[1:] == ["control"]:
        return control()
    count, seed = int(sys.argv[1]), int(sys.argv[2]) if len(sys.argv) > 2 else 1
    # noise whose noiseless bits are not given is noted
    warnings.simplefilter("ignore")
    calls = Calls(seed)
    for _ in range(count):
        calls.package()
        calls.library()
    for name, times in sorted(calls.seen.items()):
        print(f"{name}: {times}")
    print(f"{sum(calls.seen.values())} random calls from Python, seed {seed}")


if __name__ == "__main__":
    main()
