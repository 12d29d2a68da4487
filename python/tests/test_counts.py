"""Counts: equality, sums, and the text by which they are saved, which the program and the Rust crate write and read as well."""

from __future__ import annotations

import pickle
import subprocess
from itertools import permutations

import numpy as np
import pytest
from conftest import PROGRAM, REPOSITORY, jobs, program, sets_of
from hypothesis import given, settings
from hypothesis import strategies as st

from kundatrezo import DRAWS, Circuit, Counts, Job, pack_bits, sample, sample_shots, wilson

SYNDROME = Job.read(REPOSITORY / "examples/syndrome.job")
SETS = [[4, 5, 6], [0], []]


def odd(parities):
    return parities.sum(axis=1) % 2 == 1


def taken(seed, part=(1, 1), shots=20_000, **options):
    return sample(SYNDROME, shots, seed, SETS, part=part, **options)


def merged(tmp_path, texts):
    """What the program's merge says of texts: its exit status, and what it prints or says of the last file."""
    for place, text in enumerate(texts):
        (tmp_path / str(place)).write_text(text)
    done = subprocess.run([PROGRAM, "merge", *map(str, range(len(texts)))], cwd=tmp_path, capture_output=True)
    said = done.stderr.decode().removeprefix("kundatrezo: ").removeprefix(f"{len(texts) - 1}: ")
    return done.returncode, done.stdout.decode() or said.removesuffix("\n")


def test_counts_are_equal_if_their_texts_are():
    assert taken(1) == taken(1) and hash(taken(1)) == hash(taken(1)) and len({taken(1), taken(1), taken(2)}) == 2
    assert taken(1) != taken(1, count=odd) and taken(1) != taken(2) and taken(1) != 5 and taken(1) != taken(1, shots=20_001)
    assert pickle.loads(pickle.dumps(taken(1, count=odd))) == taken(1, count=odd)


def test_texts_are_read_back(tmp_path):
    some = taken(3, (1, 9)) + taken(3, (5, 9)) + taken(4)
    for counts in (taken(1), taken(1, count=odd), taken(1, (2, 3), named="block"), some, taken(1, (1, 9), 1)):
        read = Counts.of_text(counts.text())
        assert read == counts and (read.job, Counts.of_text(counts.text(), SYNDROME).job) == (None, SYNDROME)
        assert (read.rates == counts.rates).all() and (read.set_intervals == counts.set_intervals).all() and read.sets == counts.sets
        (tmp_path / "counts").write_text(counts.text())
        assert Counts.read(tmp_path / "counts") == counts
    with pytest.raises(ValueError, match="these are counts of another job"):
        Counts.of_text(taken(1).text(), SYNDROME.with_shots(5))


@pytest.mark.parametrize("count", [None, odd])
def test_parts_are_saved_by_several_machines_and_merged(tmp_path, count):
    """Parts of two seeds, of Python and with a function that counts, in any order: one call for the whole."""
    parts = [taken(seed, (place, 3), count=count) for seed, place in ((1, 2), (2, 1), (1, 3), (2, 2), (1, 1), (2, 3))]
    whole = taken(1, count=count) + taken(2, count=count)
    assert sum(parts) == whole == taken(2, count=count) + taken(1, count=count) and whole.shots == 40_000 and whole.seeds == (1, 2)
    assert merged(tmp_path, [part.text() for part in parts]) == (0, whole.text())
    # a sum of some parts is saved as well, and merged
    some = parts[0] + parts[1] + parts[4]
    assert some.missing == "of the 3 parts of seed 1 these are missing: 3"
    assert merged(tmp_path, [some.text()]) == (2, some.missing)
    assert merged(tmp_path, [some.text(), parts[2].text(), (parts[3] + parts[5]).text()]) == (0, whole.text())
    assert sum(map(Counts.of_text, [part.text() for part in parts])) == whole and not whole.missing
    if count:
        assert whole.text().splitlines()[-1].startswith(f"counted total={whole.counted} rate=")
        assert whole.counted == sum(part.counted for part in parts)
        assert whole.counted == sum(np.count_nonzero(odd(block)) for seed in (1, 2) for block in sample_shots(SYNDROME, 20_000, seed, SETS))
    for one, other, third in permutations(parts[:3]):
        assert one + other + third == third + (one + other) == sum(parts[:3])


def test_parts_of_python_and_of_the_program(tmp_path):
    options = ["--shots", 20_000, "--seed", 1, *(part for set_ in SETS for part in ("--set", ",".join(map(str, set_)) or "-"))]
    printed = [program("sample", "-", *options, "--part", f"{place}/7", job=SYNDROME).decode() for place in range(1, 8)]
    assert [taken(1, (place, 7)).text() for place in range(1, 8)] == printed
    assert sum(map(Counts.of_text, printed)) == taken(1)
    rows = [np.concatenate([*sample_shots(SYNDROME, 20_000, 1, part=(place, 2))]) for place in (1, 2)]
    assert (np.concatenate(rows) == np.concatenate([*sample_shots(SYNDROME, 20_000, 1)])).all()


@pytest.mark.filterwarnings("ignore:.* condition")
@settings(max_examples=15)
@given(jobs(), st.integers(0, 9_000), st.integers(1, 5), st.data())
def test_any_job(job, more, parts, data):
    """What the program writes of any job is read and written here, and its parts add up."""
    sets, shots = data.draw(sets_of(job)), job.shots + more
    options = ["--shots", shots, "--seed", 5, "--named", "whole"]
    options += [part for set_ in sets for part in ("--set", ",".join(map(str, set_)) or "-")]
    texts = [program("sample", "-", *options, "--part", f"{place}/{parts}", job=job) for place in range(1, parts + 1)]
    whole = sum(Counts.of_text(text.decode(), job) for text in texts)
    assert whole == sample(job, shots, 5, sets, named="whole")


def test_what_is_refused(tmp_path):
    """The program's sentences."""
    one, text = taken(1), taken(2, count=odd).text()
    lines = text.splitlines(keepends=True)
    wrong = ["".join(lines[:count]) for count in range(len(lines))]
    wrong += [text[:-1], text[:-9], text + "set=- total=0\n", text.replace("\n", "\r\n"), "ok=1\n", "\0\0", str(SYNDROME)]
    for old, new in (
        ("shots=20000", "shots=20001"),
        ("part=1/1", "part=2/1"),
        ("part=1/1", "part=1/0"),
        ("part=1/1", "part=1-2,2/3"),
        ("seed=2", "seed=2,2"),
        ("seed=2", "seed="),
        ("qubits=5", "qubits=05"),
        ("outcomes=7", "outcomes=1025"),
        ("counted=1", "counted=2"),
        ("recorded=7", "recorded=18446744073709551615"),
        ("recorded=7", "recorded=6"),
        ("id=1 total=", "id=1 total=9"),
        ("id=3 total=", "id=3 total=-"),
        ("set=4,5,6", "set=4,,6"),
        ("job=", "job=x"),
        ("\nid=0", " named=here\nid=0"),
    ):
        assert old in text
        wrong.append(text.replace(old, new, 1))
    for given_ in wrong:
        with pytest.raises(ValueError) as error:
            Counts.of_text(given_)
        assert merged(tmp_path, [given_]) == (2, str(error.value)), given_
    # sums
    text = taken(2).text()
    for other in (
        text.replace(f"draws={DRAWS}", "draws=skips"),
        text.replace("job=1", "job=2"),
        text.replace("\nid=0", " noiseless=shots\nid=0"),
        text.replace("set=0 ", "set=1 "),
        taken(2, named="whole").text(),
        taken(2, count=odd).text(),
        taken(1).text(),
        (taken(1) + taken(3)).text(),
        taken(1, (2, 3)).text(),
        sample(SYNDROME, 10, 2).text(),
        sample(SYNDROME.with_shots(5), 10, 2, SETS).text(),
    ):
        with pytest.raises(ValueError) as error:
            one + Counts.of_text(other)
        assert merged(tmp_path, [one.text(), other]) == (2, str(error.value))
    with pytest.raises(ValueError) as error:
        taken(1, (2, 3)) + taken(1, (2, 3))
    assert str(error.value) == "part 2/3 of seed 1 is counted twice"
    for other in (5, None, "1"):
        with pytest.raises(TypeError):
            one + other


def test_texts_of_earlier_versions(tmp_path):
    """Such a text may be cut off. It is refused, with the two lines with which it is read."""
    text = taken(1).text()
    old = text.replace(" recorded=7 sets=3 counted=0", "").replace(f" draws={DRAWS}", "")
    with pytest.raises(ValueError, match="counts of an earlier version, which name neither their rule of draws nor ") as error:
        Counts.of_text(old)
    assert merged(tmp_path, [old]) == (2, str(error.value))
    first = str(error.value).split("\n", 1)[1]
    assert Counts.of_text("\n".join([first, *old.splitlines()[2:], ""])) == taken(1)


def test_no_function_that_counts():
    """Without a function no rate is made up."""
    assert taken(1).counted is None and taken(1, count=lambda shots: np.zeros(len(shots))).counted_rate == 0.0
    for name in ("counted_rate", "counted_interval"):
        with pytest.raises(ValueError, match="no function counted these shots"):
            getattr(taken(1), name)
    with pytest.raises(ValueError, match="several seeds"):
        (taken(1) + taken(2)).seed
    assert taken(7).seed == 7


@pytest.mark.parametrize("shots", [1, 7, 20_000])
def test_rates_and_intervals_are_those_of_the_program(shots):
    """The arrays have the numbers that the program prints, and `wilson` the same ends."""
    options = [part for set_ in SETS for part in ("--set", ",".join(map(str, set_)) or "-")]
    counts = taken(3, shots=shots, count=odd)
    printed = program("sample", "-", "--shots", shots, "--seed", 3, *options, job=SYNDROME).decode()
    rows = [[part.partition("=")[2] for part in line.split()[1:]] for line in printed.splitlines()[2:]]
    totals = np.concatenate([counts.totals, counts.set_totals])
    rates = np.concatenate([counts.rates, counts.set_rates])
    ends = np.concatenate([counts.intervals, counts.set_intervals])
    numbers = [[f"{float(number):.6e}" for number in row[1:]] for row in rows]
    assert numbers == [[f"{number:.6e}" for number in row] for row in np.column_stack([rates, ends])]
    assert [int(row[0]) for row in rows] == totals.tolist()
    assert (np.stack(wilson(totals, shots), axis=-1) == ends).all()
    assert counts.counted_interval == tuple(float(end) for end in wilson(counts.counted, shots))


def test_an_empty_part():
    empty = taken(1, (1, 9), shots=5)
    assert empty.shots == 0 and empty.rates.tolist() == [0.0] * 7 and empty.intervals.tolist() == [[0.0, 1.0]] * 7
    assert sum(taken(1, (place, 9), shots=5) for place in range(1, 10)) == taken(1, shots=5)


def test_noiseless_bits_are_named():
    circuit = Circuit()
    circuit.measure("Z0")
    job = circuit.job(10)
    rows = [pack_bits(np.full((1, 10), bit)) for bit in (False, True)]
    counts = [sample(job, 10, seed, noiseless=row) for seed, row in enumerate(rows)]
    assert counts[0] == sample(job, 10, 0, noiseless=rows[0]) and counts[0] != sample(job, 10, 0)
    with pytest.raises(ValueError, match="other options"):
        counts[0] + counts[1]
