"""Each call, beside what the program, which is over the Rust crate, answers."""

from __future__ import annotations

import ctypes
import doctest
import importlib
import pickle
import re
import subprocess

import numpy as np
import pytest
from conftest import PROGRAM, REPOSITORY, circuits, jobs, program, sets_of
from hypothesis import given, settings
from hypothesis import strategies as st

import kundatrezo
from kundatrezo import Circuit, Job, Refused, Rows, bits, by_outcome, by_shot, error_model, fill, pack_bits
from kundatrezo import _circuit, _library

BELL = Job.read(REPOSITORY / "examples/bell.job")
SYNDROME = Job.read(REPOSITORY / "examples/syndrome.job")
SEED = ("--seed", 5, "--second-seed", 6)


def test_documentation(monkeypatch):
    monkeypatch.chdir(REPOSITORY)
    for name in ["README.md", "python/README.md"]:
        assert doctest.testfile(str(REPOSITORY / name), module_relative=False).failed == 0
    for name in ["", "._jobs", "._circuit", "._library", "._sampling"]:
        assert doctest.testmod(importlib.import_module(f"kundatrezo{name}")).failed == 0


def test_jobs_are_checked():
    assert (BELL.qubits, BELL.outcomes, BELL.shots, BELL.recorded, BELL.lines) == (2, 2, 3, 2, 7)
    with pytest.raises(Refused) as refusal:
        Job(str(BELL).replace("q=0,1", "q=0,9"))
    refused = refusal.value
    assert (refused.number, refused.line, refused.line_text) == (4, 3, "op=u g=11 q=0,9")
    said = "4 (a qubit not below the header's qubits) at line 3: op=u g=11 q=0,9\nhint: the header has qubits=2: they are 0 to 1"
    assert str(refused) == said
    assert str(pickle.loads(pickle.dumps(refused))) == str(refused)
    assert pickle.loads(pickle.dumps(BELL)) == BELL and hash(BELL) == hash(Job(str(BELL)))
    with pytest.raises(AttributeError):
        BELL.shots = 4  # type: ignore[misc]
    with pytest.raises(Refused) as refusal:
        Job(b"")
    assert (refusal.value.number, refusal.value.line) == (1, 0)


@settings(max_examples=150)
@given(jobs(), st.data())
def test_refusals_have_the_hints_of_the_program(job, data):
    """Any refused job is refused in the same words, its line shortened where it is long."""
    text = bytearray(job.text)
    pieces = [b"", b"\n", b"0", b" ", b"=", b"x=", b"\xff", b"\0", b"op=u g=H q=0\n"]
    for _ in range(data.draw(st.integers(1, 3))):
        place = data.draw(st.integers(0, len(text)))
        text[place : place + data.draw(st.integers(0, 3))] = data.draw(st.sampled_from(pieces))
    done = subprocess.run([PROGRAM, "check", "-"], input=bytes(text), capture_output=True)
    try:
        Job(bytes(text))
        assert done.returncode == 0
    except Refused as refusal:
        hint = done.stderr.decode().partition("\nhint: ")[2]
        assert (done.returncode, refusal.hint) == (1, hint.removesuffix("\n"))


def test_a_path_is_no_text():
    path = REPOSITORY / "examples/bell.job"
    for text in (str(path), "bell.job"):
        with pytest.raises(Refused, match=r"hint: Job\(text\) takes the text of a job: Job.read\(path\) reads a file"):
            Job(text)
    with pytest.raises(Refused, match="hint: the last line has no line end: add LF"):
        Job("op=job qubits=1 outcomes=0 shots=1")
    with pytest.raises(Refused, match="hint: byte 1 is not text: is this the right file?"):
        Job.read(_library.PATH)
    with pytest.raises(Refused, match="hint: settle the job first, and walk the settled job"):
        SYNDROME.walk(0, [0])


def test_refusals_have_the_texts_of_the_header():
    """Those of the numbers that the header has."""
    header = (REPOSITORY / "include/kundatrezo.h").read_text()
    names = dict(re.findall(r"#define KUNDATREZO_(\w+) (\d+) ", header))
    texts = re.findall(r'case KUNDATREZO_(\w+): return "(.*)";', header)
    assert len(texts) >= 22
    for name, text in texts:
        assert kundatrezo.REFUSAL_TEXTS[int(names[name])] == text


def test_names_of_gates_are_those_of_the_language():
    section = (REPOSITORY / "docs/JOBS.md").read_text().partition("### Gates")[2].partition("###")[0]
    table = re.findall(r"^\| (\d+) \| (\w+) \| ", section, re.MULTILINE)
    assert {name: int(code) for code, name in table} == kundatrezo.GATES


def test_the_builder_writes_every_form():
    """Those of the crate's table."""
    source = (_library.PATH.parent / "_circuit.py").read_text()
    assert len(_circuit._FORMS) >= 21 and all(f'"{form}"' in source for form in _circuit._FORMS)


@given(jobs())
def test_runs(job):
    rows = job.run(seed=5, second_seed=6)
    out = program("run", "-", *SEED, "--deltas", "/dev/stderr", "--totals", "/dev/null", job=job)
    assert out.startswith(b"ok=1 ")
    for name in ("x", "z", "deltas"):
        done = subprocess.run([PROGRAM, "run", "-", *map(str, SEED), "--totals", "/dev/null", f"--{name}", "/dev/stderr"], input=job.text, capture_output=True)
        assert done.stderr == getattr(rows, name).astype("<u8").tobytes()
    assert (bits(rows.deltas, job.shots).sum(axis=1) == rows.totals).all()


@given(jobs(), st.data())
def test_settling_and_walks(job, data):
    settled = job.settle(seed=5, second_seed=6)
    assert settled.text == program("settle", "-", *SEED, job=job)
    deltas = bits(job.run(seed=5, second_seed=6).deltas, job.shots)
    for set_ in data.draw(sets_of(job)):
        shot = data.draw(st.integers(0, job.shots - 1))
        count = settled.walk(shot, set_)
        assert program("walk", "-", "--shot", shot, "--set", ",".join(map(str, set_)) or "-", job=settled) == b"ok=1 count=%d\n" % count
        assert count % 2 == deltas[set_, shot].sum() % 2


def test_a_settled_text_that_is_too_long():
    """The refusal says how many bytes the text needs, as the program does."""
    circuit = Circuit()
    for _ in range(20):
        circuit.fault(1.0, "X0 Z5")
    job = circuit.job(4096)
    with pytest.raises(Refused) as refusal:
        job.settle(seed=1)
    done = subprocess.run([PROGRAM, "settle", "-", "--seed", "1"], input=job.text, capture_output=True)
    assert refusal.value.number == 15 and f"; the text needs {refusal.value.bytes_needed} bytes" in done.stderr.decode()
    assert pickle.loads(pickle.dumps(refusal.value)).bytes_needed == refusal.value.bytes_needed > 2**20


@given(jobs())
def test_annotation_locations_and_correlation(job):
    assert job.annotate(0.125).text == program("annotate", "-", "--p", 0.125, job=job)
    assert program("locations", "-", job=job) == b"ok=1 locations=%d\n" % job.locations()
    done = subprocess.run([PROGRAM, "correlation", "-"], input=job.text, capture_output=True)
    try:
        job.correlation()
        assert done.returncode == 0
    except Refused as refusal:
        assert done.returncode == 1 and f"refused: {refusal}".encode() in done.stderr


@given(jobs(), st.data())
def test_fault_tables_and_error_models(job, data):
    groups = data.draw(sets_of(job)) or [[]]
    table = job.fault_table(groups)
    options = [part for group in groups for part in ("--group", ",".join(map(str, group)) or "-")]
    rows = zip(table.line, table.element, table.flips)
    text = "".join(f"line={line} el={element} groups={''.join(str(int(flip)) for flip in flips)}\n" for line, element, flips in rows)
    assert text.encode() == program("faults", "-", *options, job=job)
    # more groups than the engine takes at a time
    many = [groups[place % len(groups)] for place in range(35)]
    assert (job.fault_table(many).flips == table.flips[:, [place % len(groups) for place in range(35)]]).all()
    options = [part for group in groups for part in ("--detector", ",".join(map(str, group)) or "-")]
    options += ["--observable", ",".join(map(str, groups[0])) or "-"]
    assert error_model(job, groups, groups[:1]).encode() == program("dem", "-", *options, job=job)


def test_long_fault_tables():
    """More elements than a table has room for."""
    circuit = Circuit()
    for place in range(130):
        circuit.depolarize(0.01 + place / 1000, 0, 1, 2, 3).choose(0.1, ["X0", "Z1"], [1, place + 1]).gate("CX", place % 4, (place + 1) % 4)
    groups = [[circuit.measure({qubit: "Z"})] for qubit in range(4)]
    table = circuit.job().fault_table(groups)
    assert table.flips.shape == (130 * 257, 4) and (np.diff(table.line) >= 0).all()
    options = [part for group in groups for part in ("--detector", group[0])]
    assert error_model(circuit.job(), groups).encode() == program("dem", "-", *options, job=circuit.job())


def test_fault_tables_are_refused():
    for groups, number in (([], 24), ([[3, 3]], 17), ([[99]], 17)):
        with pytest.raises(Refused) as refusal:
            SYNDROME.fault_table(groups)
        assert (refusal.value.number, refusal.value.line) == (number, 0)


def test_outcomes_that_are_refused_are_named():
    wanted = "it names recorded outcomes, 0 to 6, each once"
    settled = SYNDROME.settle(seed=1)
    for call, hint in (
        (lambda: settled.walk(0, [3, 7]), f"the set 3,7: {wanted}"),
        (lambda: settled.walk(64, [3, 6]), "the job's shots are 0 to 63"),
        (lambda: kundatrezo.sample(SYNDROME, 10, 1, [[0], [3, 3]]), f"the set 3,3: {wanted}"),
        (lambda: SYNDROME.fault_table([[0], [3, 2, 3]]), f"the group 2,3,3: {wanted}"),
        (lambda: error_model(SYNDROME, [[0], [9, 0]], [[3, 3]]), f"the detector 0,9: {wanted}"),
        (lambda: error_model(SYNDROME, [[0]] * 20, [[6], [3, 3]]), f"the observable 3,3: {wanted}"),
        (lambda: error_model(Circuit().job(), [], [[0]]), "the job records no outcome"),
        (lambda: Circuit().job().fault_table([[0]]), "the job records no outcome"),
    ):
        with pytest.raises(Refused) as refusal:
            call()
        assert (refusal.value.number, refusal.value.hint) == (17, hint)
        # the one cause of the number's that it is
        assert ("the walk's shot" in str(refusal.value)) == ("a set or group" not in str(refusal.value)) == hint.startswith("the job's shots")
        assert str(pickle.loads(pickle.dumps(refusal.value))) == str(refusal.value)


def test_outcomes_are_named_in_any_order():
    settled = SYNDROME.settle(seed=1)
    assert [settled.walk(shot, [6, 4, 5]) for shot in range(64)] == [settled.walk(shot, [4, 5, 6]) for shot in range(64)]
    assert (SYNDROME.fault_table([[6, 4, 5]]).flips == SYNDROME.fault_table([[4, 5, 6]]).flips).all()
    assert error_model(SYNDROME, [[3, 1]], [[6, 4, 5]]) == error_model(SYNDROME, [[1, 3]], [[4, 5, 6]])
    assert kundatrezo.sample(SYNDROME, 100, 1, [[6, 4, 5]]) == kundatrezo.sample(SYNDROME, 100, 1, [[4, 5, 6]])


@given(st.integers(0, 150), st.integers(1, 200), st.integers(0, 2**32))
def test_by_shot_and_back(outcomes, shots, seed):
    given_ = np.random.default_rng(seed).random((outcomes, shots)) < 0.5
    deltas = pack_bits(given_)
    rows = by_shot(deltas, shots)
    assert rows.shape == (shots, -(-outcomes // 64))
    assert (bits(rows, outcomes) == given_.T).all()
    assert (by_outcome(rows, outcomes) == deltas).all()


def test_by_shot_is_refused():
    for outcomes, shots, number in ((1025, 1, 3), (1, 0, 3), (1, 4097, 3), (2, 65, 13)):
        with pytest.raises(Refused) as refusal:
            by_shot(np.zeros((outcomes, 1), dtype=np.uint64), shots)
        assert refusal.value.number == number


def test_fill():
    assert fill(1, 2).tolist() == [1_082_269_761, 1_152_992_998_833_853_505]
    with pytest.raises(Refused) as refusal:
        fill(0, 2)
    assert (refusal.value.number, refusal.value.line) == (22, 0)
    lent = np.zeros(1000, dtype=np.uint64)
    assert np.shares_memory(fill(77, lent), lent)
    state = 77
    for word in lent[:50].tolist():
        state ^= state << 13 & 2**64 - 1
        state ^= state >> 7
        state ^= state << 17 & 2**64 - 1
        assert word == state
    # the rest of a stream is the stream of its last word
    assert (fill(int(lent[299]), 700) == lent[300:]).all()


def test_made_jobs():
    job = kundatrezo.make_job(5, 8, 100, 30, seed=9)
    assert (job.qubits, job.outcomes, job.shots) == (5, 8, 100)
    assert job.text == program("make", "--qubits", 5, "--outcomes", 8, "--shots", 100, "--lines", 30, "--seed", 9)
    assert job == kundatrezo.make_job(5, 8, 100, 30, seed=9) != kundatrezo.make_job(5, 8, 100, 30, seed=10)
    for arguments, number in (((0, 8, 100, 30, 9), 3), ((5, 8, 100, 30, 0), 22)):
        with pytest.raises(Refused) as refusal:
            kundatrezo.make_job(*arguments)
        assert (refusal.value.number, refusal.value.line) == (number, 0)


def test_arrays_are_lent():
    job = BELL
    rows = Rows.of(job)
    rows.deltas[:] = 99
    assert job.run(rows=rows) is rows
    assert rows.deltas.tolist() == [[0b010], [0b100]] and rows.totals.tolist() == [1, 1]
    # words that are lent are read where they lie
    noisy = Circuit().fault(0.5, "X0")
    outcome = noisy.measure("Z0")
    lent = np.full(64, 2**64 - 1, dtype=np.uint64)
    lent[7] = 0
    assert noisy.job(64).run(lent).deltas[outcome, 0] == 1 << 7
    assert _library.read_words(lent).ctypes.data == lent.ctypes.data


def test_rows_have_the_shape_of_their_job():
    """Rows of a longer job are not taken for those of a shorter one."""
    long = SYNDROME.with_shots(4096)
    rows = Rows.of(long)
    assert (rows.shots, long.run(seed=1, rows=rows).shots) == (0, 4096)
    for job in (SYNDROME, long.with_shots(4032), BELL):
        with pytest.raises(ValueError, match=r"rows.x has shape \(5, 64\), and this job needs .*: Rows.of\(job\) makes rows for it"):
            job.run(seed=1, rows=rows)
    # other shots in as many words: the run says how many
    assert long.with_shots(4095).run(seed=1, rows=rows) is rows and rows.shots == 4095
    own = Rows.of(SYNDROME)
    for wrong in ((rows.deltas, own.totals), (own.deltas.T.copy(), own.totals), (own.deltas, rows.x)):
        with pytest.raises(ValueError, match="has shape"):
            SYNDROME.run(seed=1, rows=Rows(own.x, own.z, *wrong))
    with pytest.raises(ValueError, match=r"noiseless bits have shape \(7, 64\), and this job needs \(7, 1\)"):
        SYNDROME.run(seed=1, noiseless=rows.deltas)
    with pytest.raises(ValueError, match="these rows have 64 words each, but outcomes=7 and shots=64 need 1"):
        by_shot(rows.deltas, 64)
    with pytest.raises(ValueError, match="these rows have 2 words each, but outcomes=7 and shots=3 need 1"):
        by_outcome(np.zeros((3, 2), dtype=np.uint64), 7)


def test_bits_are_those_of_words():
    deltas = SYNDROME.run(seed=1).deltas
    assert bits(deltas, 64).sum(axis=1).tolist() == SYNDROME.run(seed=1).totals.tolist()
    assert bits(deltas.tolist(), 64).tolist() == bits(deltas, 64).tolist()
    with pytest.raises(ValueError, match="a row of 1 words has 64 bits, not 65"):
        bits(deltas, 65)
    for wrong in (bits(deltas, 64), deltas.astype(float), [[0.5]]):
        with pytest.raises(TypeError):
            bits(wrong, 1)
    for wrong, count in ((deltas[0], 64), (deltas, -1), (np.zeros((3, 0), dtype=np.uint64), 1)):
        with pytest.raises(ValueError):
            bits(wrong, count)


def test_arrays_that_can_not_be_lent():
    rows = Rows.of(BELL)
    wrong = [rows.x.astype(np.int64), np.zeros((2, 4), dtype=np.uint64)[:, ::4], rows.x.tolist()]
    frozen = rows.x.copy()
    frozen.flags.writeable = False
    for x in [*wrong, frozen]:
        with pytest.raises(ValueError, match="contiguous, writable array"):
            BELL.run(rows=Rows(x, rows.z, rows.deltas, rows.totals))  # type: ignore[arg-type]
    with pytest.raises(ValueError, match="overlaps"):
        BELL.run(rows=Rows(rows.x, rows.x, rows.deltas, rows.totals))
    with pytest.raises(ValueError, match="overlaps"):
        BELL.run(rows=rows, noiseless=rows.deltas)
    with pytest.raises(Refused) as refusal:
        BELL.run(rows=Rows(rows.x[:0], rows.z, rows.deltas, rows.totals))
    assert refusal.value.number == 13
    with pytest.raises(ValueError, match="from 0 to below"):
        BELL.walk(-1, [0])


def test_what_is_no_list_of_words():
    """Nothing is rounded, wrapped or left out in silence."""
    for wrong in (np.random.rand(10_000), "01", ["0"], [0.0], bits(BELL.run().deltas, 3), {0}):
        with pytest.raises(TypeError):
            SYNDROME.run(wrong)  # type: ignore[arg-type]
    for wrong in ("01", ["0"], [0.0], [True]):
        with pytest.raises(TypeError):
            SYNDROME.fault_table([wrong])  # type: ignore[list-item]
        with pytest.raises(TypeError):
            kundatrezo.sample(SYNDROME, 1, 1, sets=[wrong])  # type: ignore[list-item]
    for numbers in ([-1], [2**64], np.array([-1])):
        with pytest.raises(ValueError, match="from 0 to below"):
            SYNDROME.run(numbers)
    for call, text in (
        (lambda: kundatrezo.sample("file.job", 10, 1), "job is to be a Job, and not of str"),
        (lambda: error_model("file.job", [[0]]), "job is to be a Job, and not of str"),
        (lambda: kundatrezo.sample(SYNDROME, 1e6, 1), "shots is to be a whole number, not 1000000.0: write 1000000$"),
        (lambda: kundatrezo.sample(Circuit(), 10, 1), r"job is to be a Job, and not of Circuit: circuit\.job\(\) makes one"),
        (lambda: Job(REPOSITORY / "examples/bell.job"), r"a str or bytes, and not of PosixPath: Job\.read\(path\) reads a file"),
        (lambda: Job(5), "the text of a job is to be a str or bytes, and not of int"),
        (lambda: kundatrezo.sample(SYNDROME, 10, 1.5), "a seed is to be a whole number, not 1.5"),
        (lambda: SYNDROME.run(seed=1.5), "a seed is to be a whole number, not 1.5"),
        (lambda: BELL.walk(0.5, [0]), "shot is to be a whole number, not 0.5"),
        (lambda: kundatrezo.sample(SYNDROME, 10, 1, [4, 5]), "sets is to be a list of lists of outcomes, such as"),
        (lambda: SYNDROME.fault_table([4, 5]), "groups is to be a list of lists of outcomes, such as"),
        (lambda: error_model(SYNDROME, [[4]], [5]), "observables is to be a list of lists of outcomes, such as"),
    ):
        with pytest.raises(TypeError, match=text):
            call()
    with pytest.raises(ValueError, match="not both"):
        SYNDROME.run(fill(1, 10), seed=1)
    with pytest.raises(ValueError, match="to differ"):
        SYNDROME.settle(seed=1, second_seed=1)


def test_words_past_the_list():
    with pytest.raises(Refused, match="at line 2: op=n .*\nhint: seed=N makes as many words as are needed$") as refusal:
        SYNDROME.run()
    assert (refusal.value.number, refusal.value.line) == (14, 2)
    assert str(pickle.loads(pickle.dumps(refusal.value))) == str(refusal.value)
    with pytest.raises(Refused, match="hint: second_seed=N makes"):
        Circuit().fault(0.5, "X0", corr=7).job().settle(seed=1)
    for corr in (300_000_000, 2**64 - 1):
        far = Circuit().fault(0.5, "X0", corr=corr).job()
        for call in (lambda: far.run(second_seed=1), lambda: far.settle(seed=1), lambda: kundatrezo.sample(far, 1, 1)):
            with pytest.raises(Refused) as refusal:
                call()
            # what may help is no option that the call does not have, or that is given
            assert (refusal.value.number, refusal.value.line) == (14, 2) and "seed" not in refusal.value.hint
            assert re.search(r"place (base \+ )?corr of this line lies past", refusal.value.hint)
    with pytest.raises(Refused, match="hint: the list has 10 words and this line needs more$"):
        SYNDROME.run(fill(1, 10))


def test_the_floating_point_state():
    """Calls are right where subnormal numbers are zero, and leave the state as it was."""
    # a lone weight of 2^-1074
    text = b"op=job qubits=1 outcomes=0 shots=1\nop=n p=3ff0000000000000 corr=- cond=- parity=0 d=4 n=1 size=1\nw=0000000000000001 x=0 z=-\n"
    # fenv_t of x86-64: eight words, the last of which is MXCSR
    state = (ctypes.c_uint32 * 8)()
    libm = ctypes.CDLL("libm.so.6")
    libm.fesetenv.argtypes = [ctypes.c_void_p]
    libm.fegetenv(state)
    other = (ctypes.c_uint32 * 8)(*state)
    other[7] |= 0x8040
    libm.fesetenv(other)
    try:
        job = Job(text)
        libm.fegetenv(other)
    finally:
        libm.fesetenv(state)
    assert job.lines == 3 and other[7] & 0x8040 == 0x8040


@given(circuits())
def test_builders_write_jobs(circuit):
    """The engine judges what the builder writes; `check` of the program has the same numbers."""
    job = circuit.job(circuit.shots)
    printed = f"ok=1 qubits={job.qubits} outcomes={job.outcomes} shots={job.shots} recorded={job.recorded} lines={job.lines}\n"
    assert program("check", "-", job=job).decode() == printed


def same_bytes(job):
    """Whether the circuit of a job writes the job's very bytes, and with other shots, all but them."""
    header, _, lines = job.text.partition(b"\n")
    other = job.circuit().text(4000).encode()
    return job.circuit().job() == job and other == header[: header.rindex(b"=") + 1] + b"4000\n" + lines


@settings(max_examples=300)
@given(jobs())
def test_circuits_of_built_jobs(job):
    assert same_bytes(job)
    circuit = job.circuit()
    assert circuit.measure("Z0") == job.recorded
    circuit.gate("CY", 0, 5)
    more = circuit.job()
    assert (more.qubits, more.outcomes, more.shots, more.lines) == (max(job.qubits, 6), job.recorded + 1, job.shots, job.lines + 2)


def test_circuits_of_made_jobs_and_examples():
    made = [kundatrezo.make_job(1 + seed % 80, seed % 9, 1 + seed % 70, seed % 130, seed) for seed in range(1, 501)]
    examples = [Job.read(path) for path in sorted((REPOSITORY / "examples").glob("*.job"))]
    assert len(examples) >= 5 and all(map(same_bytes, made + examples))


def test_a_circuit_keeps_the_header_of_its_job():
    """Its edition, and qubits and outcomes that no line names; lines that are added follow those of the job."""
    text = "op=job edition=1 qubits=5 outcomes=4 shots=7\nop=n p=bfe0000000000000 corr=- cond=- parity=0 d=1 x=- z=- size=1\nop=o x=- z=0 id=0\n"
    circuit = Job(text).circuit()
    assert (repr(circuit), circuit.text()) == ("<Circuit of 2 lines>", text)
    assert circuit.random() == 1 and circuit.text() == f"{text}op=r id=1 angle=0\n"
    lines = circuit.barrier(6).job(9).text.decode().splitlines()
    assert (lines[0], lines[-1]) == ("op=job edition=2 qubits=7 outcomes=4 shots=9", "op=b q=6")
    with pytest.raises(Refused) as refusal:
        Job(text).with_shots(4097)
    assert (refusal.value.number, refusal.value.line) == (3, 1)


def test_a_refused_circuit_shows_its_text():
    circuit = Circuit().gate("ControlledX", 0, 0)
    assert circuit.text(3) == "op=job qubits=1 outcomes=0 shots=3\nop=u g=11 q=0,0\n"
    with pytest.raises(Refused):
        circuit.job(3)
    accepted = Circuit().gate("ControlledY", 0, 1)
    assert accepted.text().encode() == accepted.job().text


def test_wrong_names():
    wrong_paulis = [lambda pauli=pauli: Circuit().measure(pauli) for pauli in ("Q0", "X0 Z0", {0: "x"}, {0: "XY"}, {0: ""})]
    for wrong in (lambda: Circuit().gate("CCX", 0, 1, 2), lambda: Circuit().choose(0.5, ["X0", "Z0"], [1.0, 1.0, 1.0]), *wrong_paulis):
        with pytest.raises(ValueError):
            wrong()
    with pytest.raises(Refused) as refusal:
        Circuit().gate("ControlledX", 0, 0).job()
    assert refusal.value.number == 5


WRONG_CALLS = [
    # qubits, which are whole numbers and arguments of their own
    (lambda circuit: circuit.gate("CX", [0, 1]), TypeError, "qubits are to be whole numbers, each an argument of its own, not [0, 1]"),
    (lambda circuit: circuit.gate("H", np.arange(2)), TypeError, "qubits are to be whole numbers, each an argument of its own, not array([0, 1])"),
    (lambda circuit: circuit.gate("ControlledY", 0, "9"), TypeError, "qubits are to be whole numbers, each an argument of its own, not '9'"),
    (lambda circuit: circuit.gate("H", True), TypeError, "qubits are to be whole numbers, each an argument of its own, not True"),
    (lambda circuit: circuit.gate("H", -1), ValueError, "each of the qubits is to be from 0 to below 2^64, not -1"),
    (lambda circuit: circuit.depolarize(0.1, [0, 1]), TypeError, "qubits are to be whole numbers, each an argument of its own, not [0, 1]"),
    (lambda circuit: circuit.barrier(9, 0.5), TypeError, "qubits are to be whole numbers, each an argument of its own, not 0.5"),
    (lambda circuit: circuit.reset(9, None), TypeError, "qubits are to be whole numbers, each an argument of its own, not None"),
    (lambda circuit: circuit.permute([1, 0], 9), TypeError, "qubits are to be a list of whole numbers, not 9"),
    (lambda circuit: circuit.permute(["1", "0"], [8, 9]), TypeError, "places are to be whole numbers, not '1'"),
    # Paulis
    (lambda circuit: circuit.measure(0), TypeError, "0 is no Pauli: it is written as in 'X0 Y1 Z2'"),
    (lambda circuit: circuit.measure(["Z9"]), TypeError, "['Z9'] is no Pauli: it is written as in 'X0 Y1 Z2'"),
    (lambda circuit: circuit.measure({"9": "Z"}), TypeError, "qubits are to be whole numbers, not '9'"),
    (lambda circuit: circuit.controlled("Z9", 9), TypeError, "9 is no Pauli: it is written as in 'X0 Y1 Z2'"),
    (lambda circuit: circuit.inject(0, {9: "X", -1: "X"}), ValueError, "each of the qubits is to be from 0 to below 2^64, not -1"),
    (lambda circuit: circuit.choose(0.5, ["X9", "Q9"]), ValueError, "'Q9' is no Pauli: it is written as in 'X0 Y1 Z2'"),
    # probabilities and weights
    (lambda circuit: circuit.fault(-0.5, "X9"), ValueError, "p is a probability, from 0 to 1, not -0.5"),
    (lambda circuit: circuit.depolarize(1.5, 9), ValueError, "p is a probability, from 0 to 1, not 1.5"),
    (lambda circuit: circuit.choose(float("nan"), ["X9"]), ValueError, "p is a probability, from 0 to 1, not nan"),
    (lambda circuit: circuit.choose(0.5, ["X9", "Z9"], [1, -2.0]), ValueError, "a weight is a number from 0 on, not -2.0"),
    (lambda circuit: circuit.choose(0.5, ["X9"], [float("inf")]), ValueError, "a weight is a number from 0 on, not inf"),
    (lambda circuit: circuit.fault("X9", 0.1), TypeError, "a probability or weight is a number, not 'X9'"),
    (lambda circuit: circuit.choose(0.5, ["X9", "Z9"], [1, None]), TypeError, "a probability or weight is a number, not None"),
    # outcomes, shots and the rest
    (lambda circuit: circuit.conditional("X9", 0), TypeError, "outcomes are to be a list of whole numbers, not 0"),
    (lambda circuit: circuit.fault(0.1, "X9", cond="0"), TypeError, "outcomes are to be whole numbers, not '0'"),
    (lambda circuit: circuit.fault(0.1, "X9", corr=-1), ValueError, "corr is to be from 0 to below 2^64, not -1"),
    (lambda circuit: circuit.flip(0, [0]), TypeError, "outcome is to be a whole number, not [0]"),
    (lambda circuit: circuit.inject(0.5, "X9"), TypeError, "shot is to be a whole number, not 0.5"),
    # images of a Clifford
    (lambda circuit: circuit.clifford([9], ["Z9"], []), ValueError, "a Clifford on 1 qubits has 1 images of X and 1 of Z, not 1 and 0"),
    (lambda circuit: circuit.clifford([8, 9], ["Z8"], ["X8"]), ValueError, "a Clifford on 2 qubits has 2 images of X and 2 of Z, not 1 and 1"),
    (lambda circuit: circuit.clifford([9], 2 * ["Z9"], 2 * ["X9"]), ValueError, "a Clifford on 1 qubits has 1 images of X and 1 of Z, not 2 and 2"),
    (lambda circuit: circuit.clifford([9], ["Z0"], ["X9"]), ValueError, "the image 'Z0' has qubit 0, and the Clifford is on 9"),
]


@pytest.mark.parametrize("call, error, text", WRONG_CALLS)
def test_wrong_calls_leave_nothing(call, error, text):
    """After a call that failed, the circuit is what it was: the corrected call makes the job that it would have made."""
    circuit = Circuit().gate("H", 0)
    with pytest.raises(error) as raised:
        call(circuit)
    assert str(raised.value) == text
    assert circuit.measure("Z0") == 0
    assert str(circuit.job()) == "op=job qubits=1 outcomes=1 shots=1\nop=u g=4 q=0\nop=o x=- z=0 id=0\n"


def test_gates_that_there_are():
    with pytest.raises(ValueError, match="there is no gate 'ccx'; those that there are: I, X, .*ControlledX, .*; and for short Id, H, S, .*CX, CNOT, "):
        Circuit().gate("ccx", 0, 1)
    names = {"CX": 11, "cnot": 11, "SWAP": 13, "swap": 13, "sdg": 6, "SXdg": 8, "hadamard": 4, "CY": 15}
    assert {name: Circuit().gate(name, 0).text().splitlines()[1] for name in names} == {name: f"op=u g={code} q=0" for name, code in names.items()}


def test_numbers_of_numpy():
    qubits, circuit = np.arange(1, 3), Circuit()
    circuit.gate("CX", *qubits).depolarize(np.float32(0.5), qubits[0]).reset(*qubits).clifford(qubits[:1], [{qubits[0]: "Z"}], ["X1"])
    circuit.conditional({qubits[1]: "X"}, [circuit.measure({qubits[1]: "Z"})])
    lines = ["op=u g=11 q=1,2", "op=n p=3fe0000000000000 corr=- cond=- parity=0 d=2 q=1 size=3", "op=z q=1", "op=z q=2"]
    lines += ["op=c q=1 t=0000000000000006", "op=o x=- z=2 id=0", "op=f x=2 z=- id=0 parity=1"]
    assert str(circuit.job()).splitlines() == ["op=job qubits=3 outcomes=1 shots=1", *lines]


def test_numbers_of_other_libraries():
    class Integer:
        def __index__(self):
            return 3

    circuit = Circuit().gate("H", Integer()).gate("H", np.array(2)).clifford([Integer()], iter(["Z3"]), iter(["X3"]))
    assert circuit.text().splitlines()[1:] == ["op=u g=4 q=3", "op=u g=4 q=2", "op=c q=3 t=0000000000000006"]
    with pytest.raises(TypeError):
        circuit.text(shots="3")


def test_annotation_wants_a_number():
    with pytest.raises(TypeError, match="a probability or weight is a number, not '0.1'"):
        BELL.annotate("0.1")


def test_annotation_below_zero_is_noted():
    with pytest.warns(UserWarning, match="p is below zero: no fault will fall"):
        noisy = BELL.annotate(-0.5)
    done = subprocess.run([PROGRAM, "annotate", "-", "--p=-0.5"], input=BELL.text, capture_output=True, check=True)
    assert (done.stdout, done.stderr) == (noisy.text, b"note: p is below zero: no fault will fall\n")
