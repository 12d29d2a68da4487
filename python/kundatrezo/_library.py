"""Words, and the calls of libkundatrezo_edge.so: the C interface of the Rust crate, which rust/edge/src/lib.rs declares. The crate calls the engine.

What a caller owes is kept here: aligned pointers, lists that are as long as is said, and no written list that overlaps another. That no other thread
touches a lent array while a call runs is the caller's.
"""

from __future__ import annotations

import ctypes
import operator
import os
import re
import struct
from ctypes import c_char_p, c_size_t, c_uint64, c_void_p
from dataclasses import dataclass
from pathlib import Path
from typing import Any, Optional, Sequence, Union

import numpy as np
import numpy.typing as npt

MAX_BYTES, MAX_SHOTS, MAX_OUTCOMES, MAX_GROUPS = 1_048_576, 4_096, 1_024, 16

Words = npt.NDArray[np.uint64]
"""An array of 64-bit words."""

Lendable = Union[Words, Sequence[int]]
"""Words that a call reads: an array of uint64 is lent as it is, anything else is copied into one."""


class _List(ctypes.Structure):
    _fields_ = [("first", c_void_p), ("len", c_size_t)]


class _Reply(ctypes.Structure):
    _fields_ = [("number", c_uint64), ("line", c_uint64), ("count", c_uint64), ("text", c_void_p), ("text_len", c_size_t), ("words", c_void_p),
                ("words_len", c_size_t)]  # fmt: skip


# The calls that the package makes. What they take, the library says.
_NAMES = """declarations refusals gates forms examine circuit run settle walk annotate locations correlation by_shot by_outcome fill state_of_seed
    state_of_block make outcomes fault_table error_model condition_notes sampling_open sampling_run sampling_text sampling_close counts_read
    counts_add rates free""".split()

PATH = Path(os.environ.get("KUNDATREZO_LIBRARY") or Path(__file__).with_name("libkundatrezo_edge.so")).absolute()
"""The library's file. KUNDATREZO_LIBRARY is trusted: its code is run in this process. An absolute path, since a bare name would be searched for."""


def _loaded() -> dict[str, Any]:
    try:
        library = ctypes.CDLL(str(PATH))
    except OSError as error:
        raise ImportError(f"{error}: cargo builds the library when the package is built, see python/README.md") from error
    # all of them before the first is called: another library, or an older one, is found here and not in the middle of the work
    missing = [f"kundatrezo_edge_{name}" for name in _NAMES if not hasattr(library, f"kundatrezo_edge_{name}")]
    if missing:
        raise ImportError(f"{PATH} lacks {', '.join(missing)}: it is another library, or older than this package")
    functions = {name: getattr(library, f"kundatrezo_edge_{name}") for name in _NAMES}
    for function in functions.values():
        function.restype = _Reply
    functions["free"].restype, functions["free"].argtypes = None, [_Reply]
    return functions


_functions = _loaded()
_kinds: dict[str, list[str]] = {"declarations": []}


class Refused(ValueError):
    """A call says no: the first bad line counts, and its lowest number.

    `number` is that by which docs/REFUSALS.md explains it; `line` the line of the job, from 1, or 0 if none fits, and `line_text` that line;
    `bytes_needed`, with 15 from settling, what the text needs; `hint` what may help, if something can be said; and `cause` of the causes of a number
    with several the one that it is, if that is known.
    """

    def __init__(self, number: int, line: int = 0, line_text: str = "", bytes_needed: int = 0, hint: str = "", cause: str = "") -> None:
        self.number, self.line, self.line_text, self.bytes_needed, self.hint, self.cause = number, line, line_text, bytes_needed, hint, cause
        super().__init__(number, line, line_text, bytes_needed, hint, cause)

    @property
    def text(self) -> str:
        """What the number means."""
        return self.cause or REFUSAL_TEXTS.get(self.number, "a number that this package does not know")

    def __str__(self) -> str:
        line = f" at line {self.line}: {self.line_text}" if self.line else ""
        hint = f"\nhint: {self.hint}" if self.hint else ""
        return f"{self.number} ({self.text}){line}{hint}"


@dataclass(frozen=True)
class Given:
    """What a call gives."""

    count: int
    text: bytes
    words: Words


def call(name: str, *arguments: Union[int, bytes, npt.NDArray[Any], None]) -> Given:
    """Make a call: bytes and arrays are lent where they lie; None is a list that is not given. The interpreter's lock is released meanwhile."""
    lent: list[Any] = []
    arrays: list[tuple[bool, npt.NDArray[Any]]] = []
    for kind, argument in zip(_kinds[name], arguments, strict=True):
        if isinstance(argument, np.ndarray):
            arrays.append((kind == "WordsMut", argument))
            lent.append(_List(argument.ctypes.data, argument.size))
        elif isinstance(argument, bytes):
            lent.append(_List(ctypes.cast(c_char_p(argument), c_void_p), len(argument)))
        else:
            lent.append(_List(None, 0) if argument is None else whole(argument))
    for place, (is_written, one) in enumerate(arrays):
        if any((is_written or other_is) and np.may_share_memory(one, other) for other_is, other in arrays[place + 1 :]):
            raise ValueError("an array that a call writes overlaps another that it is lent")
    reply = _functions[name](*lent)
    text = ctypes.string_at(reply.text, reply.text_len) if reply.text else b""
    words = np.empty(reply.words_len, dtype=np.uint64)
    ctypes.memmove(words.ctypes.data, reply.words, words.nbytes)
    _functions["free"](reply)
    raise_if_refused(reply, text)
    return Given(reply.count, text, words)


def raise_if_refused(reply: _Reply, text: bytes) -> None:
    """Raise what a reply refuses by: a refusal of the engine, a wrong argument (1000), or an error of the library itself."""
    if reply.number > 999:
        raise (ValueError if reply.number == 1000 else RuntimeError)(text.decode())
    if reply.number:
        cause, hint, line = text.split(b"\0", 2)
        raise Refused(reply.number, reply.line, line.decode(errors="backslashreplace"), reply.count, hint.decode(errors="replace"), cause.decode())


_kinds |= {name: re.findall(r": (\w+), ", kinds) for name, kinds in re.findall(r"edge_(\w+)\((.*)\)", call("declarations").text.decode())}
for name in _NAMES[:-1]:
    _functions[name].argtypes = [{"u64": c_uint64, "Handle": c_void_p}.get(kind, _List) for kind in _kinds[name]]

REFUSAL_TEXTS = {int(line.partition(" ")[0]): line.partition(" ")[2] for line in call("refusals").text.decode().splitlines()}
"""What the numbers of refusals mean; docs/REFUSALS.md has examples and remedies."""


def whole(number: int, name: str = "an argument", least: int = 0) -> int:
    """A number that a caller gives, which is to be below 2^64. One that is not whole is an error, and not rounded."""
    try:
        given = operator.index(number)
    except TypeError:
        # such as 1e6
        remedy = f": write {number:.0f}" if isinstance(number, float) and float(number).is_integer() and number < 2**64 else ""
        raise TypeError(f"{name} is to be a whole number, not {number!r}{remedy}") from None
    if not least <= given < 2**64:
        raise ValueError(f"{name} is to be from {least} to below 2^64, not {given}")
    return given


def binary64(number: float) -> int:
    """The bits of a probability or weight that a caller gives."""
    try:
        return int.from_bytes(struct.pack("<d", number), "little")
    except struct.error:
        raise TypeError(f"a probability or weight is a number, not {number!r}") from None


def read_words(words: Lendable) -> Words:
    """Words to be read, without a copy if they are a contiguous array of uint64. Numbers that are not whole are an error, and not rounded."""
    if isinstance(words, np.ndarray) and words.dtype == np.uint64:
        return np.require(words, requirements=["C", "A"]).reshape(-1)
    given = np.asarray(words, dtype=object).reshape(-1)
    if any(isinstance(number, bool) for number in given):
        raise TypeError("booleans are no words: kundatrezo.pack_bits makes rows of them")
    numbers = [operator.index(number) for number in given]
    if not all(0 <= number < 2**64 for number in numbers):
        raise ValueError("a word is a number from 0 to below 2^64")
    return np.array(numbers, dtype=np.uint64)


def written_words(words: Words) -> Words:
    """An array that a call writes, and which it can be lent without a copy."""
    if not (isinstance(words, np.ndarray) and words.dtype == np.uint64 and words.flags.carray):
        raise ValueError("what a call writes is to be a contiguous, writable array of uint64")
    return words.reshape(-1)


def fill(seed: int, words: Union[Words, int]) -> Words:
    """Fill a lent array, or a new one with this number of words, from a seed: Marsaglia's 64-bit xorshift, whose first state the seed is. `Refused`
    by 22 for 0. This is the program's --state. Seeds of `run` and `sample` are mixed first: `run(seed=1)` reads the words of
    `fill(state_of_seed(1), ..)`. The streams of small seeds begin alike, and are not for a series of runs.

    >>> fill(1, 2).tolist()
    [1082269761, 1152992998833853505]
    """
    words = np.empty(words, dtype=np.uint64) if isinstance(words, (int, np.integer)) else written_words(words)
    call("fill", seed, words)
    return words


def state_of_seed(seed: int) -> int:
    """The first state of a seed: the first word of SplitMix64 from it, or the second if that is zero. The program's --seed takes it so."""
    return call("state_of_seed", whole(seed, "a seed")).count


def state_of_block(seed: int, block: int, second: bool = False) -> int:
    """The first state of a block of a sample, for its main list or its second: the rule of `Xorshift::of_block` of the Rust crate."""
    return call("state_of_block", whole(seed, "a seed"), block, int(second)).count


def by_shot(deltas: Words, shots: int, *, out: Optional[Words] = None) -> Words:
    """Rows by outcome, as a run leaves deltas, as a row for each shot: outcome o is bit o mod 64 of word o // 64."""
    return _turned("by_shot", deltas, len(deltas), shots, (shots, -(-len(deltas) // 64)), out)


def by_outcome(rows: Words, outcomes: int, *, out: Optional[Words] = None) -> Words:
    """The way back from `by_shot`."""
    return _turned("by_outcome", rows, outcomes, len(rows), (outcomes, -(-len(rows) // 64)), out)


def _turned(name: str, rows: Words, outcomes: int, shots: int, shape: tuple[int, int], out: Optional[Words]) -> Words:
    if not (0 <= outcomes <= MAX_OUTCOMES and 1 <= shots <= MAX_SHOTS):
        raise Refused(3)
    # a row has a bit for each of the others
    row_words = -(-(shots if name == "by_shot" else outcomes) // 64)
    if np.ndim(rows) == 2 and np.shape(rows)[1] > row_words:
        raise ValueError(f"these rows have {np.shape(rows)[1]} words each, but outcomes={outcomes} and shots={shots} need {row_words}")
    out = np.zeros(shape, dtype=np.uint64) if out is None else out
    call(name, outcomes, shots, read_words(rows), written_words(out))
    return out


def bits(rows: Words, count: int) -> npt.NDArray[np.bool_]:
    """Rows of bits as booleans, `count` of them to a row: for the rows of a run, its job's shots."""
    given = np.asarray(rows)
    if given.dtype == bool:
        raise TypeError("bits makes booleans of words, and these are booleans")
    if given.ndim != 2:
        raise ValueError(f"rows are to be an array with a row of words each, not of shape {given.shape}")
    if not 0 <= (count := whole(count, "count")) <= 64 * given.shape[1]:
        raise ValueError(f"a row of {given.shape[1]} words has {64 * given.shape[1]} bits, not {count}")
    packed = read_words(rows).astype("<u8", copy=False).reshape(given.shape)
    return np.unpackbits(packed.view(np.uint8), axis=1, count=count, bitorder="little").view(bool)


def pack_bits(booleans: npt.ArrayLike) -> Words:
    """Booleans as rows of bits: the way back from `bits`."""
    packed = np.packbits(np.asarray(booleans, dtype=bool), axis=1, bitorder="little")
    rows = np.zeros((len(packed), -(-packed.shape[1] // 8) * 8), dtype=np.uint8)
    rows[:, : packed.shape[1]] = packed
    return rows.view("<u8").astype(np.uint64, copy=False)
