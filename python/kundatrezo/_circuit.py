"""A builder of jobs."""

from __future__ import annotations

import operator
import re
import sys
from typing import Any, Iterable, Mapping, Optional, Sequence, Union

import numpy as np

from ._jobs import Job
from ._library import binary64, call, pack_bits, whole

# The crate's tables: the code, edition, name and aliases of each gate, and the templates of lines, in which capital letters stand for values and
# are written here as `format` has them.
_TABLE = [line.split() for line in call("gates").text.decode().splitlines()]
_FORMS = {form: re.sub("[A-Z]", "{}", template) for form, template in (line.split(" ", 1) for line in call("forms").text.decode().splitlines())}

GATES = {name: int(code) for code, _, name, *_ in _TABLE}
"""The gates with their codes. ControlledY is of the second edition."""
_ALIASES = [alias for _, _, _, *aliases in _TABLE for alias in aliases]
_GATES_BY_NAME = {name.lower(): (code, int(edition)) for code, edition, *names in _TABLE for name in names}
_EACH = ", each an argument of its own"

Pauli = Union[str, Mapping[int, str]]
"""A Pauli without its sign: a text such as "X0 Y1 Z2", or the letter of each qubit. The empty one is the identity."""
_Value = Union[int, str, list[int], list[str]]


def _numbers(numbers: Iterable[int], name: str = "qubits", each: str = "") -> list[int]:
    """Numbers that a caller gives. Nothing is rounded, or read from a text."""
    try:
        given: list[Any] = list(numbers)
    except TypeError:
        raise TypeError(f"{name} are to be a list of whole numbers, not {numbers!r}") from None
    for number in given:
        try:
            # those of numpy and of other libraries are whole numbers, too
            operator.index("" if isinstance(number, (bool, np.bool_)) else number)
        except TypeError:
            raise TypeError(f"{name} are to be whole numbers{each}, not {number!r}") from None
    return [whole(number, f"each of the {name}") for number in given]


def _letters(pauli: Pauli) -> dict[int, str]:
    """The letter of each qubit, in rising order."""
    if isinstance(pauli, str):
        found = [re.fullmatch(r"([XYZ])(\d+)", part) for part in pauli.split()]
        if not all(found):
            raise ValueError(f"'{pauli}' is no Pauli: it is written as in 'X0 Y1 Z2'")
        letters = sorted((int(part[2]), part[1]) for part in found if part)
        if len(dict(letters)) < len(letters):
            raise ValueError(f"'{pauli}' has a qubit twice")
        return dict(letters)
    if not isinstance(pauli, Mapping):
        raise TypeError(f"{pauli!r} is no Pauli: it is written as in 'X0 Y1 Z2'")
    if not all(letter in ("I", "X", "Y", "Z") for letter in pauli.values()):
        raise ValueError(f"{dict(pauli)} is no Pauli: its letters are I, X, Y and Z")
    return {qubit: letter for qubit, letter in sorted(zip(_numbers(pauli), pauli.values())) if letter != "I"}


def _line(form: str, *values: _Value) -> str:
    """A line of a form, with these values for the capital letters of its template. A list without members is written as a dash."""
    return _FORMS[form].format(*[",".join(map(str, value)) or "-" if isinstance(value, list) else value for value in values])


def _parts(pauli: Pauli) -> list[list[int]]:
    """The qubits with an X part, and those with a Z part."""
    return [[qubit for qubit, letter in _letters(pauli).items() if letter in part] for part in ("XY", "ZY")]


def _digits(number: float, most: float, what: str) -> str:
    """The binary64 of a probability or a weight."""
    digits = f"{binary64(number):016x}"
    if not 0 <= number <= most:
        raise ValueError(f"{what}, not {number!r}")
    return digits


def _noise(p: float, corr: Optional[int], cond: Iterable[int], parity: int) -> list[_Value]:
    """The values with which each form of noise begins."""
    digits = _digits(p, 1, "p is a probability, from 0 to 1")
    return [digits, "-" if corr is None else whole(corr, "corr"), sorted(_numbers(cond, "outcomes")), whole(parity, "parity")]


class Circuit:
    """A circuit, line by line, after the lines of a job if one is given. The header's numbers and edition follow the lines. What is no number, Pauli
    or gate, and lists that do not belong together, are an error at once and leave the circuit as it was; the rest is the engine's to check, by `job`.

    >>> circuit = Circuit()
    >>> circuit.gate("Hadamard", 0).gate("ControlledX", 0, 1).depolarize(0.5, 0, 1)
    <Circuit of 3 lines>
    >>> circuit.measure("Z0"), circuit.measure("Z1")
    (0, 1)
    >>> print(circuit.job(shots=100), end="")
    op=job qubits=2 outcomes=2 shots=100
    op=u g=4 q=0
    op=u g=11 q=0,1
    op=n p=3fe0000000000000 corr=- cond=- parity=0 d=2 q=0,1 size=15
    op=o x=- z=0 id=0
    op=o x=- z=1 id=1
    """

    def __init__(self, job: Optional[Job] = None) -> None:
        read = call("circuit", _line("Header", 1, 0, 1).encode() + b"\n" if job is None else job.text)
        # the edition is 0 if the header has none
        self._edition, self._qubits, self._outcomes, self._shots, self._recorded = map(int, read.words)
        self._lines = read.text.decode().splitlines()

    def __repr__(self) -> str:
        return f"<Circuit of {len(self._lines)} lines>"

    def text(self, shots: Optional[int] = None) -> str:
        """The text of the lines so far after their header, not checked: what `kundatrezo check` reads if `job` is refused."""
        numbers = [self._qubits, self._outcomes, self._shots if shots is None else whole(shots, "shots")]
        header = _line("HeaderWithEdition", self._edition, *numbers) if self._edition else _line("Header", *numbers)
        return "".join(f"{line}\n" for line in (header, *self._lines))

    def job(self, shots: Optional[int] = None) -> Job:
        """The job of the lines so far, checked, of this number of shots: without it those of the job that the circuit was read from, or 1."""
        return Job(self.text(shots))

    def _add(self, *lines: str, qubits: Iterable[int] = (), edition: int = 1) -> Circuit:
        self._lines += lines
        self._qubits = max(self._qubits, *(qubit + 1 for qubit in qubits), 1)
        self._edition = max(self._edition, edition if edition > 1 else 0)
        return self

    def gate(self, name: str, *qubits: int) -> Circuit:
        """A gate by its name, such as Hadamard, SqrtZ or ControlledX (or H, S, CX), in upper or lower case, on its qubits; a control stands first."""
        code, edition = _GATES_BY_NAME.get(str(name).lower(), ("", 0))
        if not code:
            raise ValueError(f"there is no gate '{name}'; those that there are: {', '.join(GATES)}; and for short {', '.join(_ALIASES)}")
        numbers = _numbers(qubits, each=_EACH)
        return self._add(_line("Unitary", code, numbers), qubits=numbers, edition=edition)

    def clifford(self, qubits: Sequence[int], x_images: Sequence[Pauli], z_images: Sequence[Pauli]) -> Circuit:
        """Any Clifford of up to eight qubits, by the images of X and of Z on each of them, in their order. An image names qubits by their numbers."""
        numbers, x_images, z_images = _numbers(qubits), list(x_images), list(z_images)
        k = len(numbers)
        if not len(x_images) == len(z_images) == k:
            raise ValueError(f"a Clifford on {k} qubits has {k} images of X and {k} of Z, not {len(x_images)} and {len(z_images)}")
        table: list[bool] = []
        for image in (*x_images, *z_images):
            letters = _letters(image)
            for qubit in letters.keys() - set(numbers):
                raise ValueError(f"the image {image!r} has qubit {qubit}, and the Clifford is on {','.join(map(str, numbers))}")
            table += [letters.get(qubit, "I") in part for part in ("XY", "ZY") for qubit in numbers]
        words = [f"{word:016x}" for word in pack_bits([table or [False]])[0].tolist()]
        return self._add(_line("Clifford", numbers, words), qubits=numbers)

    def pauli(self, pauli: Pauli) -> Circuit:
        """A Pauli gate, which changes no frame."""
        return self._add(_line("Pauli", *_parts(pauli)), qubits=_letters(pauli))

    def exponential(self, pauli: Pauli) -> Circuit:
        """The exponential of a Pauli, by a quarter of pi."""
        return self._add(_line("PauliExp", *_parts(pauli)), qubits=_letters(pauli))

    def controlled(self, control: Pauli, target: Pauli) -> Circuit:
        """A controlled Pauli."""
        return self._add(_line("ControlledPauli", *_parts(control), *_parts(target)), qubits=[*_letters(control), *_letters(target)])

    def permute(self, places: Sequence[int], qubits: Sequence[int]) -> Circuit:
        """What was at place i of the qubits goes to place `places[i]`."""
        numbers = _numbers(qubits)
        return self._add(_line("Permute", _numbers(places, "places"), numbers), qubits=numbers)

    def measure(self, pauli: Pauli) -> int:
        """Measure a Pauli, and give the outcome's id."""
        return self._record(_line("Measure", *_parts(pauli), self._recorded), _letters(pauli))

    def random(self, angle: bool = False) -> int:
        """Record a random outcome, or one that stands for an angle, and give its id."""
        return self._record(_line("Allocate", self._recorded, int(angle)))

    def _record(self, line: str, qubits: Iterable[int] = ()) -> int:
        self._add(line, qubits=qubits)
        self._recorded += 1
        self._outcomes = max(self._outcomes, self._recorded)
        return self._recorded - 1

    def conditional(self, pauli: Pauli, outcomes: Iterable[int], parity: int = 1) -> Circuit:
        """A Pauli that is applied by the parity of outcomes."""
        line = _line("ConditionalPauli", *_parts(pauli), sorted(_numbers(outcomes, "outcomes")), whole(parity, "parity"))
        return self._add(line, qubits=_letters(pauli))

    def reset(self, *qubits: int) -> Circuit:
        """Reset qubits."""
        numbers = _numbers(qubits, each=_EACH)
        return self._add(*(_line("Reset", qubit) for qubit in numbers), qubits=numbers)

    def barrier(self, *qubits: int) -> Circuit:
        """A barrier, which does nothing."""
        numbers = _numbers(qubits, each=_EACH)
        return self._add(_line("Barrier", numbers), qubits=numbers, edition=2)

    def inject(self, shot: int, pauli: Pauli) -> Circuit:
        """A fault in one shot."""
        return self._add(_line("Inject", whole(shot, "shot"), *_parts(pauli)), qubits=_letters(pauli))

    def flip(self, shot: int, outcome: int) -> Circuit:
        """Another outcome in one shot."""
        return self._add(_line("Flip", whole(shot, "shot"), whole(outcome, "outcome")))

    def depolarize(self, p: float, *qubits: int, corr: Optional[int] = None, cond: Iterable[int] = (), parity: int = 0) -> Circuit:
        """With probability p one of all Paulis on the qubits but the identity, each as likely."""
        numbers = _numbers(qubits, each=_EACH)
        return self._add(_line("DepolarizingNoise", *_noise(p, corr, cond, parity), numbers, 4 ** len(numbers) - 1), qubits=numbers)

    def fault(self, p: float, pauli: Pauli, *, corr: Optional[int] = None, cond: Iterable[int] = (), parity: int = 0) -> Circuit:
        """With probability p a Pauli."""
        return self._add(_line("SingleNoise", *_noise(p, corr, cond, parity), *_parts(pauli), 1), qubits=_letters(pauli))

    def choose(
        self, p: float, paulis: Sequence[Pauli], weights: Optional[Sequence[float]] = None, *,
        corr: Optional[int] = None, cond: Iterable[int] = (), parity: int = 0,
    ) -> Circuit:  # fmt: skip
        """With probability p one of these Paulis, each as likely, or by weights."""
        n = len(paulis)
        if weights is not None and len(weights) != n:
            raise ValueError(f"{n} Paulis have {len(weights)} weights")
        before = [[]] * n if weights is None else [[_digits(weight, sys.float_info.max, "a weight is a number from 0 on")] for weight in weights]
        noise, element = ("UniformNoise", "Element") if weights is None else ("WeightedNoise", "WeightedElement")
        elements = [_line(element, *weight, *_parts(pauli)) for weight, pauli in zip(before, paulis)]
        qubits = [qubit for pauli in paulis for qubit in _letters(pauli)]
        return self._add(_line(noise, *_noise(p, corr, cond, parity), n, n), *elements, qubits=qubits)
