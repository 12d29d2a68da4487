"""Samples: equal counts from every executor and from the program, whatever its threads and parts."""

from __future__ import annotations

import resource
import subprocess
import warnings
from concurrent.futures import ProcessPoolExecutor, ThreadPoolExecutor
from multiprocessing import get_context

import codes
import exact
import matching
import numpy as np
import pytest
from conftest import PROGRAM, REPOSITORY, jobs, program, sets_of
from hypothesis import given, settings
from hypothesis import strategies as st

from kundatrezo import Circuit, Counts, Job, Refused, error_model, fill, pack_bits, sample, sample_shots, state_of_block

SYNDROME = Job.read(REPOSITORY / "examples/syndrome.job")
BELL = Job.read(REPOSITORY / "examples/bell.job")
SETS = [[0, 1], [4, 5, 6], []]
OPTIONS = [part for set_ in SETS for part in ("--set", ",".join(map(str, set_)) or "-")]


def odd(parities):
    """A function that processes can be given."""
    return parities.sum(axis=1) % 2 == 1


@pytest.fixture(scope="module")
def expected():
    """What the program prints."""
    return program("sample", REPOSITORY / "examples/syndrome.job", "--shots", 300_001, "--seed", 8, *OPTIONS).decode()


def counts_with(executor):
    return sample(SYNDROME, 300_001, 8, SETS, executor, count=odd)


def same(counts, expected):
    """That counts are those of the program, which has no function that counts, and those that are counted here."""
    lines = counts.text().replace(" counted=1\n", " counted=0\n").splitlines(keepends=True)
    return lines.pop().startswith(f"counted total={counts.counted} ") and "".join(lines) == expected and counts == counts_with(None)


def test_here(expected):
    assert same(counts_with(None), expected) and counts_with(None).counted > 0
    assert sample(SYNDROME, 300_001, 8, SETS).text() == expected


def test_threads(expected):
    with ThreadPoolExecutor(3) as executor:
        counts = counts_with(executor)
    assert same(counts, expected)


def test_processes(expected):
    with ProcessPoolExecutor(2, mp_context=get_context("spawn")) as executor:
        counts = counts_with(executor)
    assert same(counts, expected)


def test_dask(expected):
    distributed = pytest.importorskip("distributed")
    with distributed.LocalCluster(n_workers=2, threads_per_worker=1, dashboard_address=None) as cluster, distributed.Client(cluster) as client:
        counts = counts_with(client.get_executor())
    assert same(counts, expected)


def test_parts_of_the_program(expected, tmp_path):
    for parts in (1, 2, 7):
        files = [tmp_path / f"{parts}.{part}" for part in range(parts)]
        for place, file in enumerate(files):
            part = ["--part", f"{place + 1}/{parts}", "--output", file]
            program("sample", REPOSITORY / "examples/syndrome.job", "--shots", 300_001, "--seed", 8, *OPTIONS, *part)
        assert program("merge", *files).decode() == expected
    # counts of Python and of the program are merged, too
    (tmp_path / "python").write_text(sample(SYNDROME, 5_000, 9, SETS).text())
    (tmp_path / "program").write_text(expected)
    merged = program("merge", tmp_path / "python", tmp_path / "program").decode()
    assert merged.splitlines()[1].endswith("seed=8,9 part=1/1 of=305001")
    assert merged == (sample(SYNDROME, 5_000, 9, SETS) + Counts.of_text(expected)).text()


@pytest.mark.filterwarnings("ignore:.* condition")
@settings(max_examples=25)
@given(jobs(), st.integers(0, 9_000), st.integers(0, 2**64 - 1), st.sampled_from(["whole", "block"]), st.data())
def test_any_job(job, more, seed, named, data):
    sets = data.draw(sets_of(job))
    shots = job.shots + more
    options = [part for set_ in sets for part in ("--set", ",".join(map(str, set_)) or "-")]
    given_ = ["--shots", shots, "--seed", seed, "--named", named, *options]
    assert sample(job, shots, seed, sets, named=named).text().encode() == program("sample", "-", *given_, job=job)
    rows = b"".join(block.tobytes() for block in sample_shots(job, shots, seed, sets, packed=True, named=named))
    assert rows == program("sample", "-", *given_, "--format", "b8", job=job)


def test_shots_are_what_is_counted():
    counts = sample(SYNDROME, 9_000, 3, SETS)
    shots = np.concatenate(list(sample_shots(SYNDROME, 9_000, 3)))
    assert shots.shape == (9_000, 7) and (shots.sum(axis=0) == counts.totals).all()
    parities = np.concatenate(list(sample_shots(SYNDROME, 9_000, 3, SETS)))
    assert (parities == np.stack([shots[:, set_].sum(axis=1) % 2 for set_ in SETS], axis=1)).all()
    assert (parities.sum(axis=0) == counts.set_totals).all()


def test_streams_are_those_of_the_rule():
    # the first word of seed 1, block 0, as the Rust crate's documentation has it
    assert int(fill(state_of_block(1, 0), 1)[0]) == 11_708_912_154_547_754_076
    many = {state_of_block(seed, block, second) for seed in range(5) for block in range(50) for second in (False, True)}
    assert len(many) == 500


def test_named_shots(tmp_path):
    with pytest.raises(ValueError, match="line 4 stands in a shot that it names"):
        sample(BELL, 9_000, 1)
    for named in ("whole", "block"):
        printed = program("sample", REPOSITORY / "examples/bell.job", "--shots", 9_000, "--seed", 1, "--named", named)
        assert sample(BELL, 9_000, 1, named=named).text().encode() == printed
    with pytest.raises(Refused) as refusal:
        sample(BELL, 2, 1, named="whole")
    assert (refusal.value.number, refusal.value.line) == (10, 7)


def conditional(random=False):
    """A job whose noise looks at outcome 0, measured or random."""
    circuit = Circuit()
    circuit.random() if random else circuit.measure("Z0")
    circuit.fault(0.25, "X0", cond=[0], parity=1)
    circuit.measure("Z0")
    return circuit.job(10)


def test_noiseless_bits(tmp_path):
    job = conditional()
    of_ten = np.zeros((2, 10), dtype=bool)
    of_ten[0, [1, 2, 5, 9]] = True
    again = sample(job, 9_000, 1, noiseless=pack_bits(of_ten))
    (tmp_path / "rows").write_bytes(pack_bits(of_ten).tobytes())
    (tmp_path / "job").write_bytes(job.text)
    assert again.text().encode() == program("sample", tmp_path / "job", "--shots", 9_000, "--seed", 1, "--noiseless", tmp_path / "rows")
    by_shot = of_ten[0, np.arange(9_000) % 10].astype(np.uint8).reshape(-1, 1)
    given_ = sample(job, 9_000, 1, noiseless_shots=by_shot)
    assert (given_.totals == again.totals).all()
    (tmp_path / "shots").write_bytes(by_shot.tobytes())
    assert given_.text().encode() == program("sample", tmp_path / "job", "--shots", 9_000, "--seed", 1, "--noiseless-shots", tmp_path / "shots")
    shots = np.concatenate(list(sample_shots(job, 5_000, 1, noiseless_shots=by_shot)))
    assert (shots == np.concatenate(list(sample_shots(job, 5_000, 1, noiseless=pack_bits(of_ten))))).all()
    with pytest.raises(ValueError, match="not both"):
        sample(job, 10, 1, noiseless=pack_bits(of_ten), noiseless_shots=by_shot)
    assert 0 < again.totals[1] < sample(job, 9_000, 1, noiseless=pack_bits(~np.zeros((2, 10), dtype=bool))).totals[1]
    with pytest.raises(ValueError, match="rows of 1 bytes"):
        sample(job, 10, 1, noiseless_shots=by_shot[:9])


@pytest.mark.parametrize("shape", [(0,), (1,), (3,), (128,), (2, 64), (1, 2), (2, 2), (3, 1), (2, 1, 1)])
def test_noiseless_bits_of_another_size(shape):
    """Rows for another number of shots would be read in a wrong shape."""
    job = conditional()
    for call in (sample, lambda *arguments, **options: next(sample_shots(*arguments, **options))):
        said = r"but the header's outcomes=2 and shots=10 need exactly 2" if len(shape) == 1 else r"and this job needs \(2, 1\)"
        with pytest.raises(ValueError, match=said):
            call(job, 100, 1, noiseless=np.zeros(shape, dtype=np.uint64))


def test_conditions_are_noted(tmp_path):
    """Noise with a condition looks at noiseless bits, which are 0 unless they are given, and of a random outcome are no more than what is given."""
    no_bits = "line 3 has noise with a condition, and without {} all noiseless bits are 0"
    random = "the condition of line 3 looks at outcome 0, which op=r records at random, and its noiseless bit {}: {} gives it for each shot"
    rows, shots = pack_bits(np.zeros((2, 10), dtype=bool)), np.zeros((100, 1), dtype=np.uint8)
    (tmp_path / "rows").write_bytes(rows.tobytes())
    (tmp_path / "shots").write_bytes(shots.tobytes())
    for job, options, notes in (
        (SYNDROME, {}, []),
        (Job(str(conditional()).replace("p=3fd0000000000000", "p=0000000000000000")), {}, []),
        (conditional(), {}, [no_bits]),
        (conditional(), {"noiseless": rows}, []),
        (conditional(random=True), {}, [no_bits, random.format("is 0 in every shot", "{}")]),
        (conditional(random=True), {"noiseless": rows}, [random.format("comes again every 10 shots", "{}")]),
        (conditional(random=True), {"noiseless_shots": shots}, []),
    ):
        with warnings.catch_warnings(record=True) as caught:
            warnings.simplefilter("always")
            sample(job, 100, 1, **options)
        names = {no_bits: "noiseless= or noiseless_shots="}
        assert [str(warning.message) for warning in caught] == [note.format(names.get(note, "noiseless_shots=")) for note in notes]
        given_ = {"noiseless": ["--noiseless", tmp_path / "rows"], "noiseless_shots": ["--noiseless-shots", tmp_path / "shots"]}
        arguments = ["sample", "-", "--shots", 100, "--seed", 1, *(argument for name in options for argument in given_[name])]
        done = subprocess.run([PROGRAM, *map(str, arguments)], input=job.text, capture_output=True, check=True)
        names = {no_bits: "--noiseless or --noiseless-shots"}
        assert done.stderr.decode() == "".join(f"note: {note.format(names.get(note, '--noiseless-shots'))}\n" for note in notes)


def test_wrong_arguments():
    with pytest.raises(ValueError, match="for each of 10 shots"):
        sample(SYNDROME, 10, 1, count=lambda shots: shots)
    for wrong in ({"shots": 0}, {"shots": 2**64}, {"seed": -1}, {"named": "here"}):
        with pytest.raises(ValueError):
            sample(**{"job": SYNDROME, "shots": 10, "seed": 1, **wrong})
    with pytest.raises(Refused) as refusal:
        sample(SYNDROME, 10, 1, [[3, 1, 3]])
    assert refusal.value.number == 17
    for part in ((0, 2), (3, 2), (1,), "1/2", (1, 2, 3), None):
        with pytest.raises(ValueError, match=r"part is to be \(I, K\), with I from 1 to K"):
            sample(SYNDROME, 10, 1, part=part)


# ---- the codes of the examples


class Likeliest:
    """Counts the shots in which the likeliest guess is wrong."""

    def __init__(self, probabilities):
        self.flips = exact.decoder(probabilities)

    def __call__(self, parities):
        return self.flips[parities[:, :-1] @ (1 << np.arange(parities.shape[1] - 1))] != parities[:, -1]


@pytest.mark.parametrize("code, rounds", [(codes.repetition, 2), (codes.surface, 1)])
def test_distance_3_beside_exact_rates(code, rounds):
    """The sampled rate of the likeliest guess, and that of matching by the error model, which can't be lower."""
    experiment = code(3, rounds, 0.01)
    probabilities = exact.distribution(experiment.job, experiment.sets)
    assert abs(probabilities.sum() - 1) < 1e-9
    true = exact.failure(probabilities)
    counts = sample(experiment.job, 200_000, 1, experiment.sets, count=Likeliest(probabilities))
    deviation = (counts.counted_rate - true) / np.sqrt(true * (1 - true) / counts.shots)
    assert abs(deviation) < 4, (counts.counted_rate, true)
    model = error_model(experiment.job, experiment.detectors, [experiment.observable])
    matched = sample(experiment.job, 200_000, 1, experiment.sets, count=matching.Matching(model))
    assert 0.95 * true < matched.counted_rate < 1.5 * true


@pytest.mark.parametrize("code, distance", [(codes.repetition, 3), (codes.repetition, 5), (codes.surface, 3), (codes.surface, 5)])
def test_faults_of_the_codes(code, distance):
    """Each fault flips two detectors at most, and no two flip the observable unseen; the engine's table is that of the examples' own model."""
    experiment = code(distance, 2, 0.01)
    table = experiment.job.fault_table(experiment.sets)
    detected = table.flips[:, :-1].sum(axis=1)
    assert detected.max() == 2
    assert not (table.flips[:, -1] & (detected == 0)).any()
    seen = [{bytes(flips[:-1]) for flips in table.flips if flips[-1] == flipped} for flipped in (False, True)]
    assert not seen[0] & seen[1], "no two faults flip the observable unseen"
    if distance == 3:
        lines = [exact._fields(line) for line in str(experiment.job).splitlines()]
        own = [
            exact._effect(lines[place + 1 :], x, z, experiment.sets) for place, line in enumerate(lines) if line["op"] == "n" for x, z in exact._elements(line)
        ]
        assert own == [int(sum(1 << int(place) for place in np.flatnonzero(flips))) for flips in table.flips]


def test_the_exact_rate_by_the_program_s_model():
    """The model of docs/FAULTS.md, as the program writes it, decodes what it samples: the exact rate of distance 3 lies in the interval."""
    job = Job.read(REPOSITORY / "examples/repetition.job")
    sets = [[0], [1], [0, 2, 3], [1, 3, 4], [2]]
    options = [part for set_ in sets[:-1] for part in ("--detector", ",".join(map(str, set_)))]
    model = program("dem", REPOSITORY / "examples/repetition.job", *options, "--observable", 2).decode()
    counts = sample(job, 1_000_000, 1, sets, count=matching.Matching(model))
    low, high = counts.counted_interval
    assert low < 3 * 0.02**2 - 2 * 0.02**3 < high


def test_a_larger_distance_is_better():
    rates = []
    for distance in (3, 5):
        experiment = codes.repetition(distance, 3, 0.01)
        model = error_model(experiment.job, experiment.detectors, [experiment.observable])
        counts = sample(experiment.job, 50_000, 1, experiment.sets, count=matching.Matching(model))
        rates.append(counts.counted_interval)
    assert rates[1][1] < rates[0][0]


def test_matching_says_where_it_is_greedy():
    """Shots with more flipped detectors than are matched at best are counted, in any number of calls."""
    experiment = codes.surface(5, 2, 0.03)
    decoder = matching.Matching(error_model(experiment.job, experiment.detectors, [experiment.observable]))
    shots = np.concatenate(list(sample_shots(experiment.job, 5_000, 1, experiment.sets)))
    many = np.count_nonzero(shots[:, :-1].sum(axis=1) > matching.MOST_AT_BEST)
    with ThreadPoolExecutor(3) as threads:
        sample(experiment.job, 5_000, 1, experiment.sets, threads, count=decoder)
    assert decoder.greedy_shots == many > 0


def test_a_million_shots_by_the_program(tmp_path):
    """Of the repetition code of distance 5 and 5 rounds: less than 2 s on two processors, so less than 4 s of one."""
    (tmp_path / "job").write_bytes(codes.repetition(5, 5, 0.001).job.text)
    before = resource.getrusage(resource.RUSAGE_CHILDREN)
    program("sample", tmp_path / "job", "--shots", 1_000_000, "--seed", 1)
    after = resource.getrusage(resource.RUSAGE_CHILDREN)
    assert after.ru_utime + after.ru_stime - before.ru_utime - before.ru_stime < 4
