//! Notes of document 02 that touch the same place, two at a time: calls with all that they answer and leave, worked out by hand.

use crate::stored::written_over;
use crate::vectors::{Call, Input, Output, fresh_bytes};
use checker::calls::Answer;
use checker::cases::numbers;

/// A call by which two notes meet.
#[derive(Debug, Clone)]
#[allow(missing_docs)]
pub struct Pair {
    pub notes: &'static str,
    pub call: Call,
    pub input: Input,
    pub output: Output,
}

/// Every pair.
#[must_use]
pub fn pairs() -> Vec<Pair> {
    let mut pairs = Pairs { notes: "", all: Vec::new() };
    pairs.shared_qubits_and_sizes();
    pairs.commuting_controls_and_controlled_y();
    pairs.totals_and_shares();
    pairs.sizes_and_editions();
    pairs.editions_and_single_faults();
    pairs.wide_tables_and_single_faults();
    pairs.made_jobs_and_every_call();
    pairs.all
}

/// What lent words hold before a call.
const FRESH: u64 = 7;
/// The bytes that are lent beyond a text.
const BEYOND: usize = 5;
/// Annotation's own p, a half, and the noise lines that it writes up to their qubits.
const HALF: u64 = 0x3fe0_0000_0000_0000;
const ANNOTATION: &str = "op=n p=3fe0000000000000 corr=- cond=- parity=0 d=2 q=";
/// No probability.
const NAN: u64 = 0x7ff8_0000_0000_0000;

struct Pairs {
    notes: &'static str,
    all: Vec<Pair>,
}

impl Pairs {
    fn case(&mut self, call: Call, input: Input, output: Output) {
        self.all.push(Pair { notes: self.notes, call, input, output });
    }

    /// A call that answers and writes nothing.
    fn answers(&mut self, call: Call, input: Input, answer: Answer) {
        let Input { frames_x, frames_z, deltas, totals, marks, words, out_len, .. } = input.clone();
        let bytes = fresh_bytes(out_len);
        self.case(
            call,
            input,
            Output { answer, frames_x, frames_z, deltas, totals, marks, words, bytes, ..Output::default() },
        );
    }

    /// A refusal that leaves all that was lent.
    fn refused(&mut self, call: Call, input: Input, number: u64, line: u64) {
        self.answers(call, input, Answer { number, line, figure: 0 });
    }

    /// A text, with some bytes lent beyond it, and with a byte too few.
    fn writes(&mut self, call: Call, input: &Input, text: &str) {
        let answer = Answer::success(text.len() as u64);
        let out_len = text.len() + BEYOND;
        let output = Output { answer, bytes: written_over(text.as_bytes(), out_len), ..Output::default() };
        self.case(call, Input { out_len, ..input.clone() }, output);
        let figure = if call == Call::Settle { answer.figure } else { 0 };
        let short = Input { out_len: text.len() - 1, ..input.clone() };
        self.answers(call, short, Answer { number: 15, line: 0, figure });
    }

    /// Note 1 with 6: the size that annotation writes is that of the list without repeats.
    fn shared_qubits_and_sizes(&mut self) {
        self.notes = "1 with 6";
        // X on 0 and 2, Z on 0, 1 and 2: they meet twice. 0 and 2 enter with the control, 1 with the target.
        let meeting = "op=job qubits=4 outcomes=0 shots=1\nop=k x=0,2 z=- u=- v=0,1,2\n";
        self.writes(Call::Annotate, &on(meeting), &format!("{meeting}{ANNOTATION}0,2,1 size=63\n"));
        self.answers(Call::Locations, on(meeting), Answer::success(2 * (2 + 3)));
        self.refused(Call::Check, on(&format!("{meeting}{ANNOTATION}0,2,1 size=1023\n")), 21, 3);
        // 31 qubits without repeats, then 32.
        let long =
            |target| format!("op=job qubits=32 outcomes=0 shots=1\nop=k x={} z=- u=- v={target}\n", numbers(0..31));
        let (most, more) = (long(numbers(1..31)), long(numbers(1..32)));
        let noise = format!("{ANNOTATION}{} size=4611686018427387903\n", numbers(0..31));
        self.writes(Call::Annotate, &on(&most), &format!("{most}{noise}"));
        self.refused(Call::Annotate, on(&more), 18, 2);
        self.answers(Call::Locations, on(&more), Answer::success(2 * (31 + 31)));
    }

    /// Note 3 with 9: ControlledY is the controlled Pauli of Z and Y, which commute on two qubits and do not on one.
    fn commuting_controls_and_controlled_y(&mut self) {
        self.notes = "3 with 9";
        const GATE: &str = "op=u g=15 q=0,1\n";
        const LINE: &str = "op=k x=- z=0 u=1 v=1\n";
        let generators = "op=i shot=0 x=0 z=-\nop=i shot=1 x=- z=0\nop=i shot=2 x=1 z=-\nop=i shot=3 x=- z=1\n";
        let job = |edition: u64, lines: &str| {
            run(&format!("op=job edition={edition} qubits=2 outcomes=0 shots=4\n{generators}{lines}"), 2, 0)
        };
        // X of the control becomes XY; X and Z of the target become ZX and ZZ.
        let after = left(&[0b0001, 0b0101], &[0b1110, 0b1001], &[], &[]);
        self.case(Call::Run, job(2, GATE), after.clone());
        self.case(Call::Run, job(1, LINE), after);
        let undone = left(&[0b0001, 0b0100], &[0b0010, 0b1000], &[], &[]);
        self.case(Call::Run, job(2, &[GATE, LINE].concat()), undone);
        self.refused(Call::Run, job(1, GATE), 2, 6);
        // Back from Z1: X0 over the controlled Pauli of X0 Z1 and Z0 X1, which meet twice, then X0 Y1 over ControlledY. Both injections are counted.
        let header = "op=job edition=2 qubits=2 outcomes=1 shots=1\n";
        let injected = "op=i shot=0 x=- z=0\nop=i shot=0 x=1 z=-\n";
        let walked = format!("{header}{injected}{GATE}op=k x=0 z=1 u=1 v=0\nop=o x=- z=1 id=0\n");
        self.answers(Call::Walk, Input { set: vec![0], ..on(&walked) }, Answer::success(2));
        let anticommuting = format!("{header}{GATE}op=k x=- z=1 u=1 v=1\n");
        self.refused(Call::Walk, Input { shot: 9, ..on(&anticommuting) }, 20, 3);
        self.refused(Call::Annotate, Input { p: NAN, ..on(&anticommuting) }, 20, 3);
        self.refused(Call::Check, on(&anticommuting.replace("edition=2", "edition=1")), 2, 2);
    }

    /// Note 5 with 14: totals of a run whose words lie in two parts, or are spent there.
    fn totals_and_shares(&mut self) {
        self.notes = "5 with 14";
        let noise = "op=n p=3fe0000000000000 corr=- cond=- parity=0 d=1 x=0 z=- size=1\n";
        let once = format!("op=job qubits=1 outcomes=2 shots=3\n{noise}op=o x=- z=0 id=0\nop=t shot=1 id=0\n");
        // Of the words 0 is a fault, the others are none: those of the stretches of callers 0 and 1, then of the common part.
        let shared = |job: &str| {
            let (main, shares, marks) = (vec![u64::MAX, 0, u64::MAX, 0, 0], vec![1, 2], vec![0, 0, 0, FRESH]);
            Input { main, shares, marks, caller: 1, ..run(job, 1, 2) }
        };
        // Faults in shots 0 and 2, and a flip in shot 1.
        let ran = left(&[0b101], &[0], &[0b111, 0], &[3, 0]);
        let marks = vec![0, 2, 1, FRESH];
        self.case(Call::RunShared, shared(&once), Output { marks: marks.clone(), ..ran.clone() });
        // The settled job has the same totals.
        let settled = once.replace(noise, "op=i shot=0 x=0 z=-\nop=i shot=2 x=0 z=-\n");
        let (answer, bytes) = (Answer::success(settled.len() as u64), settled.clone().into_bytes());
        let input = Input { out_len: bytes.len(), ..shared(&once) };
        self.case(Call::SettleShared, input, Output { answer, bytes, marks, ..Output::default() });
        self.case(Call::Run, run(&settled, 1, 2), ran);
        // The second noise line finds one more word.
        let spent = Output { answer: Answer { number: 14, line: 5, figure: 0 }, ..left(&[0], &[0], &[0, 0], &[0, 0]) };
        self.case(Call::RunShared, shared(&format!("{once}{noise}")), Output { marks: vec![0, 2, 2, FRESH], ..spent });
        let refused = [
            (13, Input { totals: vec![FRESH], shares: vec![1, 5], caller: 2, ..shared(&once) }),
            (25, Input { shares: vec![1, 5], caller: 2, ..shared(&once) }),
            (26, Input { caller: 2, ..shared(&once) }),
        ];
        for (number, input) in refused {
            self.refused(Call::RunShared, input, number, 0);
        }
    }

    /// Note 6 with 9: noise lines of both editions have a size, and annotation's of ControlledY that of two qubits.
    fn sizes_and_editions(&mut self) {
        self.notes = "6 with 9";
        let gate = "op=u g=15 q=1,0\n";
        let job = format!(
            "op=job edition=2 qubits=2 outcomes=0 shots=1
op=n p=0000000000000000 corr=3 cond=- parity=0 d=2 q=1 size=3
{gate}op=b q=0,1
op=n p=0000000000000000 corr=3 cond=- parity=0 d=3 n=3 size=3
x=0 z=-
x=1 z=-
x=0 z=1
op=z q=0,1
"
        );
        let edited = |old: &str, new: &str| on(&job.replacen(old, new, 1));
        self.answers(Call::Correlation, on(&job), Answer::default());
        self.writes(Call::Annotate, &on(&job), &job.replace(gate, &format!("{gate}{ANNOTATION}1,0 size=15\n")));
        self.refused(Call::Correlation, edited("n=3 size=3\nx=0 z=-\n", "n=2 size=2\n"), 19, 5);
        self.refused(Call::Correlation, edited("n=3 size=3", "n=3 size=15"), 21, 5);
        self.refused(Call::Check, edited("q=1 size=3", "q=1 size=4"), 21, 2);
        self.refused(Call::Check, edited("q=1 size=3", "q=1"), 2, 2);
        self.refused(Call::Check, edited("edition=2", "edition=1"), 2, 3);
        self.refused(Call::Check, on(&job.replace("edition=2 ", "").replace("q=1 size=3", "q=1 size=4")), 21, 2);
    }

    /// Note 9 with 13: groups carried back over the lines of the second edition.
    fn editions_and_single_faults(&mut self) {
        self.notes = "9 with 13";
        let job = "\
op=job edition=2 qubits=5 outcomes=2 shots=1
op=n p=0000000000000000 corr=- cond=- parity=0 d=3 n=4 size=4
x=0 z=-
x=- z=0
x=1 z=-
x=- z=1
op=u g=15 q=0,1
op=b q=0,1,2
op=n p=0000000000000000 corr=- cond=- parity=0 d=1 x=1,2 z=- size=1
op=z q=3,2
op=o x=- z=1 id=0
op=o x=0,1 z=2 id=1
";
        let table = |job: &str| Input { groups: vec![1, 0, 1, 1, 2, 0, 1], ..on(job) };
        // X0, Z0, X1 and Z1 become X0 Y1, Z0, Z0 X1 and Z0 Z1; of X1 X2 the reset leaves X1.
        let rows = "\
line=2 el=0 groups=110
line=2 el=1 groups=011
line=2 el=2 groups=110
line=2 el=3 groups=000
line=9 el=0 groups=101
";
        self.writes(Call::FaultTable, &table(job), rows);
        self.refused(Call::FaultTable, table(&job.replace("edition=2 ", "")), 2, 7);
        self.refused(Call::FaultTable, Input { groups: vec![1, 2], ..on(job) }, 17, 0);
        self.refused(Call::FaultTable, table(&job.replace("d=1 x=1,2 z=- size=1", "d=2 q=0,1,2,3,4 size=1023")), 24, 9);
    }

    /// Note 12 with 13: groups carried back over a table that crosses words.
    fn wide_tables_and_single_faults(&mut self) {
        self.notes = "12 with 13";
        // ControlledX from the last place to the first, so from qubit 0 to qubit 5.
        let job = "\
op=job qubits=9 outcomes=2 shots=1
op=n p=0000000000000000 corr=- cond=- parity=0 d=2 q=0,5 size=15
op=c q=5,4,3,2,1,0 t=1010008004002001,0020010008084002,0000000000008004
op=o x=- z=5 id=0
op=o x=0 z=- id=1
";
        let table = |job: &str| Input { groups: vec![1, 0, 1, 1], ..on(job) };
        // X0 becomes X0 X5 and flips Z5, Z0 flips X0, X5 flips Z5, Z5 becomes Z0 Z5 and flips X0: bits 0 and 2 of the element, then bits 1 and 3.
        let rows = ["10", "01", "11", "10", "00", "11", "01", "01", "11", "00", "10", "11", "01", "10", "00"];
        let row = |(element, row): (usize, &&str)| format!("line=2 el={element} groups={row}\n");
        self.writes(Call::FaultTable, &table(job), &rows.iter().enumerate().map(row).collect::<String>());
        // As many qubits as a table may have are too many for this noise; the tests of the job come before those of the groups.
        self.refused(Call::FaultTable, table(&job.replace("q=0,5 size=15", "q=0,1,2,3,4,5 size=4095")), 24, 2);
        self.refused(Call::FaultTable, on(&job.replace("q=5,4,3,2,1,0", "q=8,7,6,5,4,3,2,1,0")), 5, 3);
        self.refused(Call::FaultTable, on(&job.replace(",0000000000008004", "")), 2, 3);
        self.refused(Call::FaultTable, on(&job.replace("1010008004002001", "0010008004002001")), 7, 3);
    }

    /// Note 7 with all: a job made from a seed, which has noise with a size and an element of weight zero, a barrier, a control and a target that share a
    /// qubit, ControlledY and a table on five qubits, by words that are a seed's.
    fn made_jobs_and_every_call(&mut self) {
        self.notes = "7 with all";
        let asked = Input { qubits: 5, outcomes: 2, shots: 3, lines: 8, seed: 494_822, ..Input::default() };
        let job = "\
op=job edition=2 qubits=5 outcomes=2 shots=3
op=n p=3f50624dd2f1a9fc corr=6 cond=- parity=0 d=4 n=4 size=4
w=3ff0000000000000 x=2,3,4 z=3,4
w=0000000000000000 x=4 z=4
w=3fe0000000000000 x=2,3 z=2
w=3fd0000000000000 x=- z=-
op=b q=0,1,2
op=k x=- z=2,3 u=- v=3
op=u g=15 q=3,0
op=c q=4,0,1,2,3 t=9f818c52929c601f,00000008ab05648c
op=i shot=0 x=3,4 z=3,4
op=b q=4,0,1,2,3
op=o x=1 z=- id=0
";
        self.writes(Call::Make, &asked, job);
        self.refused(Call::Make, Input { qubits: 257, seed: 0, ..asked.clone() }, 3, 0);
        self.refused(Call::Make, Input { seed: 0, ..asked }, 22, 0);
        let words = [1_082_269_761, 1_152_992_998_833_853_505, 11_177_516_664_432_764_457, 17_678_023_832_001_937_445];
        let filled = Output { words: words.to_vec(), ..Output::default() };
        self.case(Call::Fill, Input { seed: 1, words: vec![FRESH; 4], ..Input::default() }, filled);
        self.refused(Call::Fill, Input { words: vec![FRESH; 4], ..Input::default() }, 22, 0);
        self.answers(Call::Check, on(job), Answer::default());
        // The first word is below p, the second chooses the first element, the last two are no faults. The place wraps to 0.
        let drawn = Input { second: words.to_vec(), base: 0_u64.wrapping_sub(6), noiseless: vec![0; 2], ..on(job) };
        // X2 Y3 Y4; the controlled Pauli adds Z2 Z3, ControlledY gives Y0, the table takes Y0 Y2 X3 Y4 to Z0 Y1 Y2 Z3 Y4, and Y3 Y4 are injected.
        let rows = left(&[0, 1, 1, 1, 0], &[1, 1, 1, 0, 0], &[1, 0], &[1, 0]);
        let lent = Input { second: drawn.second.clone(), base: drawn.base, ..run(job, 5, 2) };
        self.case(Call::Run, lent.clone(), rows.clone());
        let shared = Input { shares: vec![0, 0], marks: vec![0; 3], caller: 1, ..lent };
        self.case(Call::RunShared, shared.clone(), Output { marks: vec![0; 3], ..rows });
        self.refused(Call::RunShared, Input { caller: 2, ..shared }, 26, 0);
        let (before, after) = job.split_once("op=n ").expect("a noise line");
        let (_, after) = after.split_once("op=b ").expect("a barrier behind its elements");
        let settled = format!("{before}op=i shot=0 x=2,3,4 z=3,4\nop=b {after}");
        self.writes(Call::Settle, &drawn, &settled);
        self.answers(Call::Walk, Input { set: vec![0], ..on(&settled) }, Answer::success(1));
        self.refused(Call::Walk, Input { set: vec![0], ..on(job) }, 16, 2);
        let noise =
            [("op=u", "2,3 size=15"), ("op=c", "3,0 size=15"), ("op=i", "4,0,1,2,3 size=1023"), ("op=o", "1 size=3")];
        let annotated = noise
            .iter()
            .fold(job.to_owned(), |text, (line, qubits)| text.replace(line, &format!("{ANNOTATION}{qubits}\n{line}")));
        self.writes(Call::Annotate, &on(job), &annotated);
        self.answers(Call::Locations, on(job), Answer::success(2 * (2 + 1 + 2 + 5 + 1)));
        self.answers(Call::Correlation, on(job), Answer::default());
        // The first two elements flip the outcome, also the one that is never drawn; the second group is empty.
        let rows = ["10", "10", "00", "00"].iter().enumerate();
        let table: String = rows.map(|(element, row)| format!("line=2 el={element} groups={row}\n")).collect();
        self.writes(Call::FaultTable, &Input { groups: vec![1, 0, 0], ..on(job) }, &table);
        self.refused(Call::FaultTable, Input { groups: vec![1, 1], ..on(job) }, 17, 0);
    }
}

/// A call on a job, with annotation's p.
fn on(job: &str) -> Input {
    Input { job: job.into(), p: HALF, ..Input::default() }
}

/// A run of a job with up to 64 shots, with a word lent beyond each list.
fn run(job: &str, qubits: usize, outcomes: usize) -> Input {
    let words = |count| vec![FRESH; count + 1];
    Input {
        frames_x: words(qubits),
        frames_z: words(qubits),
        deltas: words(outcomes),
        totals: words(outcomes),
        with_totals: true,
        noiseless: vec![0; outcomes],
        ..on(job)
    }
}

/// What such a run leaves: a word for each row, a number for each total.
fn left(x: &[u64], z: &[u64], deltas: &[u64], totals: &[u64]) -> Output {
    let [frames_x, frames_z, deltas, totals] = [x, z, deltas, totals].map(|words| [words, &[FRESH]].concat());
    Output { frames_x, frames_z, deltas, totals, ..Output::default() }
}

#[cfg(test)]
mod tests {
    use super::pairs;
    use crate::Reference;
    use checker::calls::Calls;
    use checker::plain::Plain;

    #[test]
    fn the_published_code_and_the_plain_calls_answer_as_worked_out_by_hand() {
        for pair in pairs() {
            for calls in [&Reference as &dyn Calls, &Plain] {
                let output = pair.input.make(pair.call, calls).expect("both make every call");
                assert_eq!(output, pair.output, "{} by {}", pair.notes, pair.call.name());
            }
        }
    }
}
