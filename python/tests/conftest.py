"""What tests share: the program, and circuits of all kinds of lines."""

from __future__ import annotations

import os
import subprocess
import sys
from pathlib import Path
from typing import Union

from hypothesis import settings
from hypothesis import strategies as st

from kundatrezo import Circuit, Job

REPOSITORY = Path(__file__).resolve().parents[2]
PROGRAM = os.environ.get("KUNDATREZO_PROGRAM", str(REPOSITORY / "rust/target/debug/kundatrezo"))
sys.path.insert(0, str(REPOSITORY / "python/examples"))

# the same examples each time, so that a test that passed passes again
settings.register_profile("kundatrezo", derandomize=True, deadline=None, max_examples=40)
settings.load_profile("kundatrezo")


def program(*arguments: object, job: Union[Job, bytes, None] = None) -> bytes:
    """What the program, the Rust crate's calls on files, prints."""
    text = job.text if isinstance(job, Job) else job
    return subprocess.run([PROGRAM, *map(str, arguments)], input=text, capture_output=True, check=True).stdout


QUBITS = st.integers(0, 3)
PAULIS = st.dictionaries(QUBITS, st.sampled_from("XYZ"), max_size=3)
PROBABILITIES = st.sampled_from([0.0, 0.01, 0.25, 0.5, 1.0])


@st.composite
def circuits(draw: st.DrawFn) -> Circuit:
    """Circuits of up to 25 lines, of all kinds."""
    circuit = Circuit()
    shots = draw(st.integers(1, 200))
    circuit.shots = shots  # type: ignore[attr-defined]
    outcomes = 0
    kinds = ["gate", "gate", "two", "two", "pauli", "exponential", "clifford", "permute", "measure", "measure", "random", "conditional", "reset"]
    kinds += ["depolarize", "depolarize", "fault", "choose", "weighted", "barrier", "inject", "flip", "controlled"]
    for kind in draw(st.lists(st.sampled_from(kinds), max_size=25)):
        pair = draw(st.permutations(range(4)))[:2]
        recorded = draw(st.sets(st.integers(0, outcomes - 1), max_size=3)) if outcomes else set()
        noise = {"cond": recorded, "parity": draw(st.integers(0, 1)) if recorded else 0, "corr": draw(st.sampled_from([None, None, 0, 7, 500]))}
        p = draw(PROBABILITIES)
        if kind == "gate":
            circuit.gate(draw(st.sampled_from(["I", "X", "Hadamard", "SqrtZ", "SqrtX", "SqrtY", "SqrtZInv", "S", "H"])), pair[0])
        elif kind == "two":
            circuit.gate(draw(st.sampled_from(["ControlledX", "ControlledZ", "Swap", "PrepareBell", "ControlledY", "CX"])), *pair)
        elif kind in ("pauli", "exponential"):
            getattr(circuit, kind)(draw(PAULIS))
        elif kind == "clifford":
            one, other = pair
            circuit.clifford(pair, [{one: "X", other: "X"}, {other: "X"}], [{one: "Z"}, {one: "Z", other: "Z"}])
        elif kind == "controlled":
            circuit.controlled({pair[0]: draw(st.sampled_from("XYZ"))}, {pair[1]: draw(st.sampled_from("XYZ"))})
        elif kind == "permute":
            circuit.permute(draw(st.permutations(range(3))), draw(st.permutations(range(4)))[:3])
        elif kind == "measure":
            outcomes = circuit.measure(draw(PAULIS)) + 1
        elif kind == "random":
            outcomes = circuit.random(angle=draw(st.booleans())) + 1
        elif kind == "conditional":
            circuit.conditional(draw(PAULIS), recorded)
        elif kind == "reset":
            circuit.reset(*pair)
        elif kind == "barrier":
            circuit.barrier(*pair)
        elif kind == "inject":
            circuit.inject(draw(st.integers(0, shots - 1)), draw(PAULIS))
        elif kind == "flip" and outcomes:
            circuit.flip(draw(st.integers(0, shots - 1)), draw(st.integers(0, outcomes - 1)))
        elif kind == "depolarize":
            circuit.depolarize(p, *pair[: draw(st.integers(1, 2))], **noise)
        elif kind == "fault":
            circuit.fault(p, draw(PAULIS), **noise)
        elif kind in ("choose", "weighted"):
            paulis = draw(st.lists(PAULIS, min_size=1, max_size=4))
            weights = [place + 0.5 for place in range(len(paulis))] if kind == "weighted" else None
            circuit.choose(p, paulis, weights, **noise)
    return circuit


@st.composite
def jobs(draw: st.DrawFn) -> Job:
    """Jobs of all kinds of lines."""
    circuit = draw(circuits())
    return circuit.job(circuit.shots)  # type: ignore[attr-defined]


def sets_of(job: Job) -> st.SearchStrategy[list[list[int]]]:
    """Sets of outcomes that a job records."""
    one = st.sets(st.integers(0, job.recorded - 1), max_size=4) if job.recorded else st.just(set())
    return st.lists(one.map(sorted), max_size=4)
