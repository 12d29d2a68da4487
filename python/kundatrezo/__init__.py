"""Kundatrezo, a Pauli-frame noise engine that is written and proved in Rattle, from its library.

A `Job` is a circuit with noise, of which `Circuit` writes the lines; `sample` gives rates with their intervals, on as many shots as it takes:

>>> circuit = Circuit()
>>> outcome = circuit.fault(0.25, "X0").measure("Z0")
>>> counts = sample(circuit.job(), shots=100_000, seed=1)
>>> low, high = counts.intervals[outcome]
>>> bool(low < counts.rates[outcome] < high)
True

The calls are those of the engine, which is proved, by the Rust crate. The crate's sampler and error models, and the builder here, are tested.
"""

from ._circuit import GATES, Circuit, Pauli
from ._jobs import FaultTable, Job, Mechanism, Rows, error_model, make_job, mechanisms
from ._library import MAX_BYTES, MAX_GROUPS, MAX_OUTCOMES, MAX_SHOTS, REFUSAL_TEXTS, Refused
from ._library import bits, by_outcome, by_shot, fill, pack_bits, state_of_block, state_of_seed
from ._sampling import DRAWS, Counts, sample, sample_shots, wilson

# the name that users know
Refused.__module__ = "kundatrezo"

__version__ = "0.1.0"

# fmt: off
__all__ = [
    "DRAWS", "GATES", "MAX_BYTES", "MAX_GROUPS", "MAX_OUTCOMES", "MAX_SHOTS", "REFUSAL_TEXTS", "Circuit", "Counts", "FaultTable", "Job", "Mechanism",
    "Pauli", "Refused", "Rows", "bits", "by_outcome", "by_shot", "error_model", "fill", "make_job", "mechanisms", "pack_bits", "sample",
    "sample_shots", "state_of_block", "state_of_seed", "wilson",
]
