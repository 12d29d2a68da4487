//! Callers with shares of a main list, beside plain calls on the words that are available to them.

use kundatrezo::{
    AccountError, Draws, Frames, MAX_CALLERS, Number, SharedDraws, Xorshift, examine, run, settle, settled,
};

/// Noise of every kind, also from the second list, with a condition.
const JOB: &str = "op=job qubits=3 outcomes=3 shots=5
op=n p=3fe0000000000000 corr=- cond=- parity=0 d=2 q=0,1 size=15
op=o x=- z=0 id=0
op=n p=3fe8000000000000 corr=2 cond=- parity=0 d=3 n=2 size=2
x=0 z=-
x=1 z=2
op=n p=3fe0000000000000 corr=- cond=0 parity=1 d=4 n=2 size=2
w=3ff0000000000000 x=2 z=-
w=4000000000000000 x=- z=0
op=o x=0 z=2 id=1
op=n p=3fd0000000000000 corr=- cond=- parity=0 d=1 x=2 z=- size=1
op=o x=- z=2 id=2
";

const NOISELESS: [u64; 3] = [0b10110, 0b00111, 0b01010];

/// A sequence of numbers.
struct Random(Xorshift);

impl Random {
    fn below(&mut self, n: u64) -> u64 {
        self.0.next().expect("words without end") % n
    }
}

/// A job with some of its noise lines.
fn job(random: &mut Random) -> String {
    let mut keeps = true;
    let lines = JOB.lines().filter(|line| {
        if line.starts_with("op=n ") {
            keeps = random.below(3) > 0;
        } else if line.starts_with("op=") {
            keeps = true;
        }
        keeps
    });
    lines.flat_map(|line| [line, "\n"]).collect()
}

/// The list, what each part of it is, and what was taken, kept apart from the engine.
struct Model {
    shares: Vec<usize>,
    taken: Vec<usize>,
    handed: Vec<bool>,
}

impl Model {
    /// The places of the words that are available to a caller, in their order.
    fn available(&self, caller: usize) -> Vec<usize> {
        let from: usize = self.shares[..caller].iter().sum();
        let common: usize = self.shares.iter().sum();
        let own = from + self.taken[caller]..from + self.shares[caller];
        own.chain(common + self.taken[self.shares.len()]..self.handed.len()).collect()
    }

    fn take(&mut self, caller: usize, words: usize) {
        let available = self.available(caller);
        let own = words.min(self.shares[caller] - self.taken[caller]);
        self.taken[caller] += own;
        *self.taken.last_mut().expect("the common part") += words - own;
        for place in &available[..words] {
            assert!(!self.handed[*place], "word {place} is handed out twice");
            self.handed[*place] = true;
        }
    }
}

/// Sequences of runs and settlings by up to eight callers: each is the plain call on the words available, and takes as many of them as that one reads.
#[test]
fn a_shared_call_is_a_plain_one_on_the_words_available() {
    let mut random = Random(Xorshift::new(14));
    let mut seen = [0; 3];
    for _ in 0..300 {
        let words: Vec<u64> = Xorshift::new(random.below(1 << 40)).take(random.below(400) as usize).collect();
        let second: Vec<u64> = Xorshift::new(random.below(1 << 40)).take(random.below(20) as usize).collect();
        let callers = 1 + random.below(MAX_CALLERS as u64) as usize;
        let shares: Vec<u64> = (0..callers).map(|_| random.below(1 + words.len() as u64 / callers as u64)).collect();
        let mut draws = SharedDraws::new(&words, &shares).expect("shares that fit");
        let mut model = Model {
            shares: shares.iter().map(|share| *share as usize).collect(),
            taken: vec![0; callers + 1],
            handed: vec![false; words.len()],
        };
        for _ in 0..10 {
            let (job, caller, base) = (job(&mut random), random.below(callers as u64) as usize, random.below(4));
            let available: Vec<u64> = model.available(caller).into_iter().map(|place| words[place]).collect();
            assert_eq!(draws.available(caller).concat(), available);
            let plain = Draws::new(&available).with_second(&second, base);
            let room = if random.below(3) == 0 { random.below(300) as usize } else { 1_000 };
            let mut out = [vec![7; room], vec![7; room]];
            let refusal = if random.below(2) == 0 {
                let shared =
                    Frames::from_run(job.as_bytes(), &NOISELESS, draws.caller(caller).with_second(&second, base));
                let alone = Frames::from_run(job.as_bytes(), &NOISELESS, plain);
                assert_eq!(shared, alone);
                shared.err()
            } else {
                let caller = draws.caller(caller).with_second(&second, base);
                let shared = settle(job.as_bytes(), &NOISELESS, caller, &mut out[0]);
                assert_eq!(shared, settle(job.as_bytes(), &NOISELESS, plain, &mut out[1]));
                assert_eq!(out[0], out[1]);
                shared.err()
            };
            let taken = match refusal.map(|refusal| refusal.number) {
                None => plain.words_read(job.as_bytes(), &NOISELESS).expect("it runs").main,
                Some(Number::DRAWS) => taken_by_spent(&job, &NOISELESS, plain),
                Some(number) => {
                    assert_eq!(number, Number::ROOM);
                    0
                }
            };
            seen[refusal.map_or(0, |refusal| if refusal.number == Number::DRAWS { 1 } else { 2 })] += 1;
            model.take(caller, taken);
            let marks: Vec<u64> = model.taken.iter().map(|taken| *taken as u64).collect();
            assert_eq!(draws.marks(), marks);
        }
        let handed = model.handed.iter().filter(|handed| **handed).count() as u64;
        let left: u64 = (0..callers).map(|caller| draws.own_left(caller)).sum::<u64>() + draws.common_left();
        assert_eq!(handed + left, words.len() as u64);
        assert_eq!(SharedDraws::from_account(&words, &draws.to_string()), Ok(draws));
    }
    assert!(seen.iter().all(|count| *count > 100), "{seen:?}");
}

/// How many words a job has taken that is refused by 14: all, if it wants one more of the main list; else what the lines before the refused one took.
fn taken_by_spent(job: &str, noiseless: &[u64], draws: Draws<'_>) -> usize {
    let refusal = settled(job.as_bytes(), noiseless, draws).expect_err("it is spent");
    let line = String::from_utf8(refusal.line_of(job.as_bytes()).expect("a noise line").to_vec()).expect("text");
    if line.contains("corr=- ") {
        return draws.main.len();
    }
    let before: String = job.lines().take(refusal.line as usize - 1).flat_map(|line| [line, "\n"]).collect();
    draws.words_read(before.as_bytes(), noiseless).expect("it runs").main
}

/// A caller whose jobs stay within the own stretch gets the same whatever the others do.
#[test]
fn the_others_do_not_disturb() {
    let words: Vec<u64> = Xorshift::new(3).take(400).collect();
    let second: Vec<u64> = Xorshift::new(4).take(40).collect();
    let frames = |others: &[usize]| -> Vec<Frames> {
        let mut draws = SharedDraws::new(&words, &[40, 100, 40]).expect("shares that fit");
        let mut others = others.iter();
        let one = |_| {
            for other in others.next().into_iter().chain(others.next()) {
                _ = Frames::from_run(JOB.as_bytes(), &NOISELESS, draws.caller(*other).with_second(&second, 1));
            }
            Frames::from_run(JOB.as_bytes(), &NOISELESS, draws.caller(1).with_second(&second, 1)).expect("it runs")
        };
        let frames = (0..4).map(one).collect();
        assert!(draws.own_left(1) > 0, "the caller stays within the stretch");
        frames
    };
    let alone = frames(&[]);
    assert!(alone.windows(2).all(|pair| pair[0] != pair[1]), "each job has words of its own");
    for others in [&[0, 2, 0, 2, 0, 2][..], &[2; 8], &[0, 0]] {
        assert_eq!(frames(others), alone);
    }
}

#[test]
fn shares_and_callers_are_tested() {
    let words = [0; 10];
    for shares in [&[][..], &[0; 9], &[11], &[5, 6], &[u64::MAX, 2], &[u64::MAX, u64::MAX]] {
        let refusal = SharedDraws::new(&words, shares).expect_err("shares that do not fit");
        assert_eq!((refusal.number, refusal.line), (Number::SHARES, 0), "{shares:?}");
    }
    for shares in [&[0; 8][..], &[10], &[5, 5], &[0, 10, 0]] {
        assert_eq!(SharedDraws::new(&words, shares).map(|draws| draws.callers()), Ok(shares.len()));
    }
    let mut draws = SharedDraws::new(&words, &[5, 5]).expect("shares that fit");
    for caller in [2, 3, usize::MAX] {
        let refusal = settled(JOB.as_bytes(), &NOISELESS, draws.caller(caller)).expect_err("there is no such caller");
        assert_eq!((refusal.number, refusal.line), (Number::CALLER, 0));
    }
    // the tests of a job and 13 come first, and take nothing
    let bad =
        settled(b"op=job qubits=1 outcomes=0 shots=1\nop=z q=1\n", &[], draws.caller(2)).expect_err("it is refused");
    assert_eq!((bad.number, bad.line), (Number::QUBIT, 2));
    assert_eq!(settled(JOB.as_bytes(), &[], draws.caller(2)).expect_err("too few words").number, Number::WORDS);
    assert_eq!(draws.marks(), [0; 3]);
    // rows without totals
    let job = b"op=job qubits=1 outcomes=1 shots=2\nop=n p=3ff0000000000000 corr=- cond=- parity=0 d=1 x=0 z=- size=1\nop=o x=- z=0 id=0\n";
    let (mut x, mut z, mut deltas) = ([0], [0], [0]);
    let rows = kundatrezo::Rows::new(&mut x, &mut z, &mut deltas);
    assert_eq!(run(job, rows, &[0], draws.caller(1)), Ok(()));
    assert_eq!((x, z, deltas, draws.marks()), ([0b11], [0], [0b11], &[0, 2, 0][..]));
    assert_eq!(examine(job).map(|job| job.shots), Ok(2));
}

#[test]
fn an_account_is_read_back_with_its_list_alone() {
    let words = [1, 2, 3, 4, 5];
    let mut draws = SharedDraws::new(&words, &[2, 1]).expect("shares that fit");
    let job =
        b"op=job qubits=1 outcomes=0 shots=3\nop=n p=3fe0000000000000 corr=- cond=- parity=0 d=1 x=0 z=- size=1\n";
    settled(job, &[], draws.caller(1)).expect("it settles");
    let account = draws.to_string();
    let (lines, seal) = account.split_once("seal=").expect("a seal");
    assert!(lines.ends_with("caller=0 share=2 taken=0\ncaller=1 share=1 taken=1\ncommon=2 taken=2\n"), "{account}");
    let sealed = |lines: &str| {
        let hash = lines
            .bytes()
            .fold(0xcbf2_9ce4_8422_2325_u64, |sum, byte| (sum ^ u64::from(byte)).wrapping_mul(0x0100_0000_01b3));
        format!("{lines}seal={hash:016x}\n")
    };
    assert_eq!(sealed(lines), account);
    assert_eq!(SharedDraws::from_account(&words, &account), Ok(draws));
    assert_eq!(SharedDraws::length_of(&account), Some(5));
    assert_eq!(SharedDraws::marks_of(&account), Ok(vec![0, 1, 2]));
    for other in [&[1, 2, 3, 4][..], &[1, 2, 3, 4, 5, 6], &[1, 2, 3, 5, 4], &[]] {
        assert_eq!(SharedDraws::from_account(other, &account), Err(AccountError::OtherList));
    }
    let edits = [
        ("taken=1", "taken=2"),
        ("taken=2", "taken=3"),
        ("common=2", "common=3"),
        ("share=2", "share=3"),
        ("caller=1", "caller=2"),
        ("taken=0", "taken=00"),
        ("taken=0\n", "taken=0\n\n"),
        ("list=5 ", "list=5  "),
        ("common=2 taken=2\n", ""),
        ("sum=", "hash="),
    ];
    // an edit shows by the seal; what is no account stays none with another seal
    for (old, new) in edits {
        let edited = account.replacen(old, new, 1);
        assert_ne!(edited, account);
        assert_eq!(SharedDraws::from_account(&words, &edited), Err(AccountError::Edited), "{edited}");
        let edited = sealed(&lines.replacen(old, new, 1));
        assert_eq!(SharedDraws::from_account(&words, &edited), Err(AccountError::Form), "{edited}");
    }
    let fewer = account.replace("taken=1", "taken=0");
    assert_eq!(SharedDraws::from_account(&words, &fewer), Err(AccountError::Edited));
    assert_eq!((SharedDraws::length_of(&fewer), SharedDraws::marks_of(&fewer)), (None, Err(AccountError::Edited)));
    for text in ["", lines, &account.replace('\n', "\r\n"), &account[..account.len() - 1], &format!("{account}\n")] {
        assert!(SharedDraws::from_account(&words, text).is_err(), "{text:?}");
    }
    assert_eq!(seal.len(), 17);
    assert_eq!(SharedDraws::from_account(&words, lines), Err(AccountError::Form));
}
