//! Jobs made for each sentence of the tests of a job, with their answers as worked out by hand: every limit and one past it, and the places where two
//! numbers meet.

/// A job, and the number and line that its check answers.
#[derive(Debug, Clone, PartialEq, Eq)]
#[allow(missing_docs)]
pub struct Case {
    pub job: Vec<u8>,
    pub number: u64,
    pub line: u64,
}

/// Every case.
#[must_use]
pub fn cases() -> Vec<Case> {
    let mut cases = Cases(Vec::new());
    cases.whole_jobs();
    cases.headers();
    cases.first_and_later_headers();
    cases.largest_headers();
    cases.lines_by_number();
    cases.words_of_tables();
    cases.wide_tables();
    cases.lines_by_edition();
    cases.noise_lines();
    cases.sizes();
    cases.element_lines();
    cases.weights();
    cases.other_bytes();
    cases.0
}

const HEADER: &str = "op=job qubits=40 outcomes=3 shots=65\n";
const SMALLEST: &str = "op=job qubits=1 outcomes=0 shots=1\n";
const LARGEST: &str = "op=job qubits=256 outcomes=1024 shots=4096\n";

struct Cases(Vec<Case>);

impl Cases {
    fn job(&mut self, job: impl Into<Vec<u8>>, number: u64, line: u64) {
        self.0.push(Case { job: job.into(), number, line });
    }

    /// Lines after the header and two recorded outcomes (lines 2 and 3), so that the first of `lines` is line 4.
    fn lines(&mut self, lines: &str, number: u64, line: u64) {
        self.job(format!("{HEADER}op=o x=- z=0 id=0\nop=r id=1 angle=1\n{lines}\n"), number, line);
    }

    /// One line there.
    fn line(&mut self, line: &str, number: u64) {
        self.lines(line, number, if number == 0 { 0 } else { 4 });
    }

    fn whole_jobs(&mut self) {
        self.job("", 1, 0);
        self.job("op=bad", 1, 0);
        self.job("\n", 2, 1);
        self.job(SMALLEST, 0, 0);
        self.job(format!("{SMALLEST}\n"), 2, 2);
        self.job(SMALLEST.replace('\n', "\r\n"), 2, 1);
        let longest = filled(SMALLEST, 1_048_576);
        self.job(&longest[..1_048_575], 1, 0);
        self.job(longest, 0, 0);
        self.job(filled(SMALLEST, 1_048_577), 1, 0);
        // A line may be long.
        self.job(format!("{SMALLEST}op=p x={} z=-\n", numbers(0..300)), 4, 2);
        self.job(format!("{SMALLEST}op=z q={}\n", "9".repeat(1_000)), 2, 2);
    }

    fn headers(&mut self) {
        let numbers = [
            ("qubits=256 outcomes=1024 shots=4096", 0),
            ("qubits=1 outcomes=0 shots=1", 0),
            ("qubits=0 outcomes=0 shots=1", 3),
            ("qubits=257 outcomes=0 shots=1", 3),
            ("qubits=1 outcomes=1025 shots=1", 3),
            ("qubits=1 outcomes=0 shots=0", 3),
            ("qubits=1 outcomes=0 shots=4097", 3),
            ("qubits=18446744073709551615 outcomes=0 shots=1", 3),
            ("qubits=1 outcomes=18446744073709551615 shots=1", 3),
            ("qubits=1 outcomes=0 shots=18446744073709551615", 3),
            ("qubits=18446744073709551616 outcomes=0 shots=1", 2),
            ("qubits=18446744073709551617 outcomes=0 shots=1", 2),
            ("qubits=1 outcomes=18446744073709551616 shots=1", 2),
            ("qubits=1 outcomes=0 shots=18446744073709551617", 2),
            ("qubits=01 outcomes=0 shots=1", 2),
            ("qubits=1 outcomes=00 shots=1", 2),
            ("qubits=1 outcomes=0", 2),
            ("qubits=1 shots=1 outcomes=0", 2),
            ("qubits=1  outcomes=0 shots=1", 2),
            ("qubits=1 outcomes=0 shots=1 ", 2),
            ("edition=1 qubits=1 outcomes=0 shots=1", 0),
            ("edition=2 qubits=256 outcomes=1024 shots=4096", 0),
            ("edition=0 qubits=1 outcomes=0 shots=1", 23),
            ("edition=3 qubits=1 outcomes=0 shots=1", 23),
            ("edition=18446744073709551615 qubits=1 outcomes=0 shots=1", 23),
            ("edition=18446744073709551616 qubits=1 outcomes=0 shots=1", 2),
            ("edition=02 qubits=1 outcomes=0 shots=1", 2),
            ("edition= qubits=1 outcomes=0 shots=1", 2),
            ("edition=- qubits=1 outcomes=0 shots=1", 2),
            ("edition=1,2 qubits=1 outcomes=0 shots=1", 2),
            ("edition=2  qubits=1 outcomes=0 shots=1", 2),
            ("edition=2 edition=2 qubits=1 outcomes=0 shots=1", 2),
            ("edition=2 qubits=1 outcomes=0", 2),
            // The field has one place.
            ("qubits=1 edition=2 outcomes=0 shots=1", 2),
            ("qubits=1 outcomes=0 edition=2 shots=1", 2),
            ("qubits=1 outcomes=0 shots=1 edition=2", 2),
            // Of two numbers that hold, the range's is tested first.
            ("edition=3 qubits=257 outcomes=0 shots=1", 3),
            ("edition=0 qubits=1 outcomes=1025 shots=1", 3),
            ("edition=3 qubits=1 outcomes=0 shots=0", 3),
            ("edition=2 qubits=0 outcomes=0 shots=1", 3),
        ];
        for (numbers, number) in numbers {
            self.job(format!("op=job {numbers}\n"), number, u64::from(number != 0));
        }
    }

    fn first_and_later_headers(&mut self) {
        self.job("op=u g=4 q=0\n", 3, 1);
        self.job("op=z q=0\n", 3, 1);
        self.job("x=- z=-\n", 2, 1);
        // Without a header the edition is 1, and these have no form.
        self.job("op=u g=15 q=0,1\n", 2, 1);
        self.job("op=z q=0,1\n", 2, 1);
        self.job("op=b q=0\n", 2, 1);
        // A bad edition counts whatever stands below it.
        self.job("op=job edition=3 qubits=1 outcomes=0 shots=1\nop=b q=1\n", 23, 1);
        self.job("op=job edition=0 qubits=1 outcomes=0 shots=1\nop=x\n", 23, 1);
        self.line("op=job qubits=1 outcomes=0 shots=1", 3);
        self.line("op=job qubits=0 outcomes=0 shots=1", 3);
        self.line("op=job qubits=1 outcomes=0 shots=", 2);
        for edition in 0..4 {
            self.line(&format!("op=job edition={edition} qubits=1 outcomes=0 shots=1"), 3);
        }
        self.line("op=job edition=02 qubits=1 outcomes=0 shots=1", 2);
        // A noise line alone lacks its header and its element line: the lower number counts.
        self.job("op=n p=0000000000000000 corr=- cond=- parity=0 d=3 n=1 size=1\n", 2, 1);
    }

    /// What the largest header lets pass: qubit 255, shot 4095 and outcome 1023.
    fn largest_headers(&mut self) {
        let mut line =
            |line: &str, number: u64| self.job(format!("{LARGEST}{line}\n"), number, 2 * u64::from(number != 0));
        line("op=z q=255", 0);
        line("op=z q=256", 4);
        line("op=u g=13 q=255,0", 0);
        line("op=u g=13 q=0,256", 4);
        line("op=i shot=4095 x=- z=255", 0);
        line("op=i shot=4096 x=- z=255", 10);
        let recorded: String = (0..1024).map(|id| format!("op=r id={id} angle=0\n")).collect();
        self.job(format!("{LARGEST}{recorded}op=t shot=4095 id=1023\n"), 0, 0);
        self.job(format!("{LARGEST}{recorded}op=t shot=4095 id=1023\nop=r id=1024 angle=0\n"), 8, 1027);
    }

    fn lines_by_number(&mut self) {
        let long = &numbers(0..32);
        let full = &numbers(0..31);
        let table: [(String, u64); 88] = [
            ("op=u g=14 q=0,39".into(), 0),
            ("op=u g=15 q=99".into(), 2),
            ("op=u g=04 q=0".into(), 2),
            ("op=u g=18446744073709551615 q=0".into(), 2),
            ("op=u g=4 q=-".into(), 2),
            ("op=u g=4 q=40".into(), 4),
            ("op=u g=4 q=0,40".into(), 4),
            ("op=u g=4 q=0,1".into(), 5),
            ("op=u g=10 q=0".into(), 0),
            ("op=u g=10 q=0,1".into(), 5),
            ("op=u g=11 q=0".into(), 5),
            ("op=u g=11 q=0,1".into(), 0),
            ("op=u g=11 q=3,3".into(), 5),
            (format!("op=u g=4 q={long}"), 5),
            (format!("op=p x={full} z={full}"), 0),
            (format!("op=p x={long} z=-"), 5),
            (format!("op=p x=- z={long}"), 5),
            // A list is read to its end, however long.
            (format!("op=p x={long},40 z=-"), 4),
            (format!("op=p x={long},7 z=-"), 2),
            (format!("op=p x={long},033 z=-"), 2),
            (format!("op=p x={long},18446744073709551616 z=-"), 2),
            (format!("op=p x={full},31 z=-"), 5),
            (format!("op=p x={full},40 z=-"), 4),
            ("op=p x=9,1 z=-".into(), 2),
            ("op=p x=1,1 z=-".into(), 2),
            ("op=p x=-,1 z=-".into(), 2),
            ("op=p x=01 z=-".into(), 2),
            ("op=p x= z=-".into(), 2),
            ("op=p x=- z=- ".into(), 2),
            ("op=e x=18446744073709551615 z=-".into(), 4),
            ("op=e x=18446744073709551616 z=-".into(), 2),
            ("op=e x=18446744073709551620 z=-".into(), 2),
            ("op=e x=99999999999999999999 z=-".into(), 2),
            ("op=e x=100000000000000000000 z=-".into(), 2),
            (format!("op=k x={long} z=- u=- v=40"), 4),
            (format!("op=k x={full} z={full} u={full} v={full}"), 0),
            (format!("op=k x={full} z={full} u={full} v={long}"), 5),
            // Control and target commute where they meet an even number of times; 4 and 5 come first.
            ("op=k x=0,1 z=- u=- v=0,1".into(), 0),
            ("op=k x=0 z=1 u=1 v=0".into(), 0),
            ("op=k x=0 z=0 u=0 v=0".into(), 0),
            ("op=k x=- z=- u=- v=0".into(), 0),
            ("op=k x=0 z=- u=- v=0".into(), 20),
            ("op=k x=- z=0 u=0 v=-".into(), 20),
            ("op=k x=0 z=- u=0 v=0".into(), 20),
            ("op=k x=0,1,2 z=- u=- v=0,1,2".into(), 20),
            (format!("op=k x={full} z=- u=- v={full}"), 20),
            ("op=k x=0 z=- u=- v=0,40".into(), 4),
            (format!("op=k x=0 z=- u=- v={long}"), 5),
            ("op=c q=0 t=0000000000000009".into(), 0),
            ("op=c q=0 t=0000000000000019".into(), 7),
            ("op=c q=0 t=0000000000000001".into(), 7),
            ("op=c q=0 t=000000000000000B".into(), 2),
            ("op=c q=0 t=00000000000000009".into(), 2),
            ("op=c q=0,1,2,3 t=8040201008040201".into(), 0),
            // Of all pairs of images the last alone does not commute as its generators do.
            ("op=c q=0,1,2,3 t=8440201008040201".into(), 7),
            ("op=c q=0,1,2,3,4 t=0000000000000000".into(), 2),
            ("op=c q=0,0 t=0000000000000000".into(), 5),
            ("op=c q=0,1,2,40 t=0000000000000000".into(), 4),
            ("op=m s=1,2,0 q=7,9,8".into(), 0),
            ("op=m s=1,2 q=7,9,8".into(), 6),
            ("op=m s=1,1,0 q=7,9,8".into(), 6),
            ("op=m s=1,18446744073709551615,0 q=7,9,8".into(), 6),
            ("op=m s=1,2,0 q=7,7,8".into(), 5),
            (format!("op=m s={full} q={full}"), 0),
            (format!("op=m s={long} q=0,1"), 5),
            ("op=m s=- q=0".into(), 2),
            ("op=o x=- z=- id=2".into(), 0),
            ("op=o x=- z=- id=3".into(), 8),
            ("op=o x=- z=40 id=3".into(), 4),
            ("op=r id=2 angle=0\nop=o x=- z=- id=2".into(), 8),
            ("op=r id=1 angle=0".into(), 8),
            ("op=r id=2 angle=2".into(), 2),
            ("op=f x=0 z=- id=0,1 parity=1".into(), 0),
            ("op=f x=0 z=- id=- parity=1".into(), 0),
            ("op=f x=0 z=- id=2 parity=1".into(), 9),
            ("op=f x=0 z=- id=18446744073709551615 parity=0".into(), 9),
            (format!("op=f x=0 z=- id={long} parity=0"), 5),
            (format!("op=f x=0 z=- id={full} parity=0"), 9),
            ("op=z q=39".into(), 0),
            ("op=z q=40".into(), 4),
            ("op=z q=0,1".into(), 2),
            ("op=i shot=64 x=- z=-".into(), 0),
            ("op=i shot=65 x=- z=-".into(), 10),
            ("op=i shot=65 x=40 z=-".into(), 4),
            ("op=t shot=64 id=1".into(), 0),
            ("op=t shot=65 id=1".into(), 10),
            ("op=t shot=65 id=2".into(), 9),
            ("op=x q=0".into(), 2),
        ];
        for (lines, number) in table {
            // The refused line is the last of its text.
            let place = if number == 0 { 0 } else { 3 + lines.lines().count() as u64 };
            self.lines(&lines, number, place);
        }
        self.line("x=- z=-", 2);
        // The first bad line counts, whatever its number.
        self.lines("op=k x=0 z=- u=- v=0\nop=z q=40", 20, 4);
        self.lines("op=z q=40\nop=k x=0 z=- u=- v=0", 4, 4);
    }

    /// As many words as 4k² bits need, for k from 1 to 8, or else 2; k above 8 is 5, whatever their number.
    fn words_of_tables(&mut self) {
        for (qubits, words) in [(1, 1), (2, 1), (3, 1), (4, 1), (5, 2), (6, 3), (7, 4), (8, 4)] {
            let q = numbers(0..qubits);
            // A table of zeros is no Clifford.
            self.line(&clifford(&q, &zeros(words)), 7);
            self.line(&clifford(&q, &zeros(words - 1)), 2);
            self.line(&clifford(&q, &zeros(words + 1)), 2);
        }
        self.line(&clifford(&numbers(0..8), &zeros(32)), 2);
        for (qubits, words) in [(9, 1), (9, 4), (9, 5), (9, 6), (9, 31), (9, 32), (31, 1), (31, 61), (32, 1), (32, 64)]
        {
            self.line(&clifford(&numbers(0..qubits), &zeros(words)), 5);
        }
        // k counts repeats and qubits out of range; 2 comes before 4, and 4 before 5.
        let table: [(&str, &str, u64); 14] = [
            ("0,1,2,3,0", &zeros(1), 2),
            ("0,1,2,3,0", &zeros(2), 5),
            ("0,1,2,3,40", &zeros(1), 2),
            ("0,1,2,3,40", &zeros(2), 4),
            ("40,40,40,40,40", &zeros(1), 2),
            ("40,40,40,40,40", &zeros(2), 4),
            ("0,1,2,3,4,5,6,7,7", &zeros(4), 5),
            ("0,1,2,3,4,5,6,7,40", &zeros(4), 4),
            ("0,1,2,3,4,5,6,40", &zeros(5), 2),
            // Each word has its form, also where there are too many qubits.
            ("0,1,2,3,4,5,6,7,8", "0000000000000000,000000000000000A", 2),
            ("0,1,2,3,4,5,6,7,8", "0000000000000000,0", 2),
            ("0,1,2,3,4,5,6,7,40", "", 2),
            ("0,1,2,3,4,5,6,7,40", "-", 2),
            ("0,1,2,3,4,5,6,7,8", "0000000000000000,", 2),
        ];
        for (qubits, words, number) in table {
            self.line(&clifford(qubits, words), number);
        }
        for words in ["", "-", "0000000000000000,", ",0000000000000000", "0000000000000000,,0000000000000000"] {
            self.line(&clifford("0,1,2,3,4", words), 2);
        }
        for between in [", ", " ", ";"] {
            self.line(&clifford("0,1,2,3,4", &["0080100200400801", "0000000801002004"].join(between)), 2);
        }
    }

    /// Tables of five qubits and more: the identity's, one of whose pairs of images the last alone does not commute as its generators do, one with a
    /// bit past the table, and one with a row that begins in one word and ends in the next.
    fn wide_tables(&mut self) {
        let table: [(u64, &str, u64); 19] = [
            (5, "0080100200400801,0000000801002004", 0),
            (5, "0080100200400801,0000000821002004", 7),
            (5, "0080100200400801,0000001801002004", 7),
            (5, "0080100200400801,8000000801002004", 7),
            // SqrtX on the second qubit: the image of Z has its X part in the first word, its Z part in the second.
            (5, "2080100200400801,0000000801002004", 0),
            (5, "2080100200400801,0000000801002000", 7),
            (5, "0000000801002004,0080100200400801", 7),
            (6, "0010008004002001,0020010008004002,0000000000008004", 0),
            (6, "0010008004002001,0020010008004002,0000000000008104", 7),
            (6, "0010008004002001,0020010008004002,0000000000018004", 7),
            // ControlledX from the sixth qubit to the first: the image of X has one part in each word.
            (6, "1010008004002001,0020010008084002,0000000000008004", 0),
            (6, "1010008004002001,0020010008004002,0000000000008004", 7),
            (7, "1000200040008001,0100020004000800,0010002000400080,0000000000000008", 0),
            (7, "1000200040008001,0100020004000800,0810002000400080,0000000000000008", 7),
            (7, "1000200040008001,0100020004000800,0010002000400080,0000000000000018", 7),
            // ControlledX from the fifth qubit to the first, as before.
            (7, "1100200040008001,0100220004000800,0010002000400080,0000000000000008", 0),
            (7, "0100200040008001,0100220004000800,0010002000400080,0000000000000008", 7),
            (8, "0008000400020001,0080004000200010,0800040002000100,8000400020001000", 0),
            (8, "0008000400020001,0080004000200010,0800040002000100,8040400020001000", 7),
        ];
        for (qubits, words, number) in table {
            self.line(&clifford(&numbers(0..qubits), words), number);
        }
        // Of five qubits and eight, the least significant word alone is wrong.
        self.line(&clifford(&numbers(7..15), "0008000400020000,0080004000200010,0800040002000100,8000400020001000"), 7);
        self.line(&clifford(&numbers(0..5), "0080100200400800,0000000801002004"), 7);
    }

    /// Lines whose number hangs on the edition: that in the first, with its field and without, and that in the second.
    fn lines_by_edition(&mut self) {
        let long = &numbers(0..32);
        let full = &numbers(0..31);
        let table: [(String, u64, u64); 34] = [
            ("op=u g=14 q=0,39".into(), 0, 0),
            ("op=u g=15 q=0,39".into(), 2, 0),
            ("op=u g=15 q=39,0".into(), 2, 0),
            ("op=u g=15 q=0,40".into(), 2, 4),
            ("op=u g=15 q=40".into(), 2, 4),
            ("op=u g=15 q=0".into(), 2, 5),
            ("op=u g=15 q=3,3".into(), 2, 5),
            ("op=u g=15 q=0,1,2".into(), 2, 5),
            ("op=u g=015 q=0,1".into(), 2, 2),
            ("op=u g=16 q=0,1".into(), 2, 2),
            ("op=u g=16 q=0,40".into(), 2, 2),
            ("op=b q=39".into(), 2, 0),
            ("op=b q=39,0,7".into(), 2, 0),
            ("op=b q=40".into(), 2, 4),
            ("op=b q=40,40".into(), 2, 4),
            ("op=b q=3,7,3".into(), 2, 5),
            (format!("op=b q={full}"), 2, 0),
            (format!("op=b q={long}"), 2, 5),
            (format!("op=b q={long},40"), 2, 4),
            (format!("op=b q={long},033"), 2, 2),
            ("op=b q=-".into(), 2, 2),
            ("op=b q=".into(), 2, 2),
            ("op=b".into(), 2, 2),
            ("op=b q=0 ".into(), 2, 2),
            ("op=b x=0 z=-".into(), 2, 2),
            ("op=z q=39".into(), 0, 0),
            ("op=z q=40".into(), 4, 4),
            ("op=z q=39,0,7".into(), 2, 0),
            ("op=z q=0,40".into(), 2, 4),
            ("op=z q=7,7".into(), 2, 5),
            (format!("op=z q={full}"), 2, 0),
            (format!("op=z q={long}"), 2, 5),
            (format!("op=z q={long},40"), 2, 4),
            ("op=z q=0,-".into(), 2, 2),
        ];
        for (line, first, second) in table {
            for (field, number) in [("", first), ("edition=1 ", first), ("edition=2 ", second)] {
                let header = HEADER.replace("qubits", &format!("{field}qubits"));
                self.job(format!("{header}{line}\n"), number, 2 * u64::from(number != 0));
            }
        }
    }

    fn noise_lines(&mut self) {
        let long = numbers(0..32);
        let table = [
            ("p=3ff0000000000000 corr=- cond=- parity=0 d=1 x=- z=- size=1", 0),
            ("p=3ff0000000000001 corr=- cond=- parity=0 d=1 x=- z=- size=1", 11),
            ("p=7ff0000000000000 corr=- cond=- parity=0 d=1 x=- z=- size=1", 11),
            ("p=7ff0000000000001 corr=- cond=- parity=0 d=1 x=- z=- size=1", 11),
            ("p=7ff8000000000000 corr=- cond=- parity=0 d=1 x=- z=- size=1", 11),
            ("p=fff8000000000000 corr=- cond=- parity=0 d=1 x=- z=- size=1", 11),
            ("p=ffffffffffffffff corr=- cond=- parity=0 d=1 x=- z=- size=1", 11),
            ("p=fff0000000000000 corr=- cond=- parity=0 d=1 x=- z=- size=1", 0),
            ("p=8000000000000000 corr=- cond=- parity=0 d=1 x=- z=- size=1", 0),
            ("p=0000000000000001 corr=- cond=- parity=0 d=1 x=- z=- size=1", 0),
            ("p=3FF0000000000000 corr=- cond=- parity=0 d=1 x=- z=- size=1", 2),
            ("p=8000000000000000 corr=18446744073709551615 cond=- parity=0 d=2 q=0 size=3", 0),
            ("p=8000000000000000 corr=18446744073709551616 cond=- parity=0 d=2 q=0 size=3", 2),
            ("p=8000000000000000 corr=00 cond=- parity=0 d=2 q=0 size=3", 2),
            ("p=3ff0000000000001 corr=- cond=- parity=1 d=1 x=40 z=- size=1", 2),
            ("p=3ff0000000000001 corr=- cond=2 parity=1 d=1 x=40 z=- size=1", 4),
            ("p=3ff0000000000001 corr=- cond=2 parity=1 d=2 q=3,3 size=15", 5),
            ("p=3ff0000000000001 corr=- cond=2 parity=1 d=2 q=3,4 size=15", 9),
            ("p=3ff0000000000001 corr=- cond=1 parity=1 d=2 q=3,4 size=15", 11),
            ("p=3ff0000000000000 corr=- cond=1 parity=1 d=5 q=3,4 size=15", 2),
            ("p=3ff0000000000000 corr=- cond=1 parity=1 d=01 x=- z=- size=1", 2),
            ("p=3ff0000000000000 corr=- cond=1 parity=1 d=2 x=- z=- size=1", 2),
        ];
        for (fields, number) in table {
            self.line(&format!("op=n {fields}"), number);
        }
        self.line(&format!("op=n p=3ff0000000000001 corr=- cond={long} parity=0 d=2 q=3 size=3"), 5);
    }

    /// The size at the end of a noise line: 2 without it, and 21 after every other test of the line.
    fn sizes(&mut self) {
        let full = &numbers(0..31);
        let long = &numbers(0..32);
        let table: [(String, u64); 39] = [
            ("d=1 x=0 z=1".into(), 2),
            ("d=1 x=0 z=1 size=".into(), 2),
            ("d=1 x=0 z=1 size=-".into(), 2),
            ("d=1 x=0 z=1 size=1".into(), 0),
            ("d=1 x=0 z=1 size=01".into(), 2),
            ("d=1 x=0 z=1 size=1 ".into(), 2),
            ("d=1 x=0 z=1 size=1 size=1".into(), 2),
            ("d=1 size=1 x=0 z=1".into(), 2),
            ("d=1 x=0 z=1 size=0".into(), 21),
            ("d=1 x=0 z=1 size=2".into(), 21),
            ("d=1 x=0 z=1 size=18446744073709551615".into(), 21),
            ("d=1 x=0 z=1 size=18446744073709551616".into(), 2),
            ("d=1 x=0 z=1 size=18446744073709551617".into(), 2),
            ("d=1 x=40 z=- size=2".into(), 4),
            (format!("d=1 x={long} z=- size=2"), 5),
            ("d=2 q=0".into(), 2),
            ("d=2 q=0 size=3".into(), 0),
            ("d=2 q=0 size=03".into(), 2),
            ("d=2 q=0 size=1".into(), 21),
            ("d=2 q=0 size=2".into(), 21),
            ("d=2 q=0 size=4".into(), 21),
            ("d=2 q=0,1 size=15".into(), 0),
            ("d=2 q=0,1 size=3".into(), 21),
            ("d=2 q=0,1 size=16".into(), 21),
            // 4^31 - 1, beside 4^31, 4^31 - 2 and 2^64 - 1.
            (format!("d=2 q={full} size=4611686018427387903"), 0),
            (format!("d=2 q={full} size=4611686018427387904"), 21),
            (format!("d=2 q={full} size=4611686018427387902"), 21),
            (format!("d=2 q={full} size=18446744073709551615"), 21),
            // From 32 qubits on 4^k is not below 2^64, and 4 or 5 comes first.
            (format!("d=2 q={long} size=0"), 5),
            (format!("d=2 q={long} size=18446744073709551615"), 5),
            (format!("d=2 q={} size=0", numbers(0..33)), 5),
            (format!("d=2 q={long},40 size=0"), 4),
            (format!("d=2 q={} size=0", numbers(0..64)), 4),
            ("d=2 q=0,0 size=15".into(), 5),
            ("d=2 q=40 size=4".into(), 4),
            ("d=3 n=0 size=0".into(), 12),
            ("d=3 n=0 size=1".into(), 12),
            ("d=4 n=0 size=0".into(), 12),
            ("d=3 size=0 n=0".into(), 2),
        ];
        for (distribution, number) in table {
            self.line(&format!("op=n p=3ff0000000000000 corr=- cond=- parity=0 {distribution}"), number);
        }
        // 9 and 11 before 21, and 21 of an earlier line before what comes later.
        self.line("op=n p=3ff0000000000000 corr=- cond=2 parity=0 d=1 x=- z=- size=2", 9);
        self.line("op=n p=3ff0000000000001 corr=- cond=1 parity=0 d=1 x=- z=- size=2", 11);
        self.lines("op=n p=3ff0000000000000 corr=- cond=- parity=0 d=1 x=- z=- size=2\nop=z q=40", 21, 4);
        self.lines("op=z q=40\nop=n p=3ff0000000000000 corr=- cond=- parity=0 d=1 x=- z=- size=2", 4, 4);
        self.lines("op=k x=0 z=- u=- v=0\nop=n p=3ff0000000000000 corr=- cond=- parity=0 d=1 x=- z=- size=2", 20, 4);
        self.sizes_with_elements();
    }

    /// The size beside element lines: the noise line's own 21 before any fault of theirs, but for one that is missing.
    fn sizes_with_elements(&mut self) {
        for size in [0, 1, 3, 4, 15] {
            self.lines(&(sized(3, 2, size) + &elements(2)), 21, 4);
            self.lines(&(sized(4, 2, size) + &weighted(&[ONE; 2])), 21, 4);
        }
        self.lines(&(sized(3, 2, 3) + "x=40 z=-\nx=- z=-"), 21, 4);
        self.lines(&(sized(3, 2, 3) + "x=-\nx=- z=-"), 21, 4);
        self.lines(&(sized(4, 1, 2) + "w=7ff0000000000000 x=- z=-"), 21, 4);
        self.lines(&(sized(3, 2, 3) + "x=- z=-"), 21, 4);
        // A missing element line is 2 where the noise line is the job's last.
        self.lines(sized(3, 2, 3).trim_end(), 2, 4);
        self.lines(sized(4, 1, 1).trim_end(), 2, 4);
        // An n that may not be is 12, whatever the size.
        self.lines(&(sized(3, 65, 65) + &elements(65)), 12, 4);
        self.lines(&(sized(4, 65, 64) + &weighted(&[ONE; 65])), 12, 4);
        // Element lines have no size.
        self.lines(&(sized(3, 1, 1) + "x=- z=- size=1"), 2, 5);
        self.lines(&(sized(4, 1, 1) + "w=3ff0000000000000 x=- z=- size=1"), 2, 5);
        self.line("op=i shot=0 x=- z=- size=1", 2);
    }

    fn element_lines(&mut self) {
        for n in [1, 2, 64] {
            self.lines(&(noise(3, n) + &elements(n)), 0, 0);
            self.lines(&(noise(4, n) + &weighted(&vec![ONE; n])), 0, 0);
        }
        // n of 0 misses no element line; an n above 64 on the job's last line does.
        self.lines(noise(3, 0).trim_end(), 12, 4);
        self.lines(noise(4, 0).trim_end(), 12, 4);
        self.lines(&(noise(3, 65) + &elements(65)), 12, 4);
        self.lines(&(noise(4, 65) + &weighted(&[ONE; 65])), 12, 4);
        self.lines(noise(3, 65).trim_end(), 2, 4);
        self.lines(noise(3, 1).trim_end(), 2, 4);
        self.lines(&(noise(3, 2) + &elements(1)), 2, 5);
        let largest = |n: &str| format!("op=n p=3ff0000000000000 corr=- cond=- parity=0 d=3 n={n} size={n}\nx=- z=-");
        self.lines(&largest("18446744073709551615"), 12, 4);
        self.lines(&largest("18446744073709551616"), 2, 4);
        // A missing element line covers the last line's own faults, an earlier bad line comes first.
        self.lines(&(noise(3, 2) + "x=40 z=-"), 2, 5);
        self.lines(&(noise(3, 3) + "x=40 z=-\nx=- z=-"), 4, 5);
        self.lines(&(noise(3, 1) + "op=z q=0"), 2, 5);
        self.lines(&(noise(3, 1) + &weighted(&[ONE])), 2, 5);
        self.lines(&(noise(4, 1) + "x=- z=-"), 2, 5);
        self.lines(&(noise(3, 1) + "x=- z=-\nx=- z=-"), 2, 6);
        self.lines(&(noise(3, 1) + HEADER.trim_end()), 2, 5);
        self.lines(&(noise(3, 1) + &format!("x={} z=-", numbers(0..31))), 0, 0);
        self.lines(&(noise(3, 1) + &format!("x={} z=-", numbers(0..32))), 5, 5);
    }

    fn weights(&mut self) {
        let (zero, minus_zero) = ("0000000000000000", "8000000000000000");
        let (least, most) = ("0000000000000001", "7fefffffffffffff");
        let (infinity, nan, minus_nan) = ("7ff0000000000000", "7ff8000000000000", "fff8000000000000");
        let table: [(&[&str], u64, u64); 14] = [
            (&[zero, minus_zero, ONE], 0, 0),
            (&[least], 0, 0),
            (&[least, least, "000fffffffffffff"], 0, 0),
            (&[minus_zero, least], 0, 0),
            (&[zero], 12, 5),
            (&[minus_zero], 12, 5),
            (&[zero, minus_zero], 12, 6),
            (&[ONE, "8000000000000001", ONE], 12, 6),
            (&[infinity, ONE], 12, 5),
            (&[nan, ONE], 12, 5),
            (&[ONE, minus_nan], 12, 6),
            (&[most], 0, 0),
            // The sum leaves the finite numbers at the second element; its total is tested at the last.
            (&[most, most, ONE, ONE], 12, 8),
            (&[most, most], 12, 6),
        ];
        for (weights, number, line) in table {
            self.lines(&(noise(4, weights.len()) + &weighted(weights)), number, line);
        }
        self.lines(&(noise(4, 1) + "w=7ff0000000000000 x=40 z=-"), 4, 5);
    }

    /// Bytes that no form has.
    fn other_bytes(&mut self) {
        self.job(b"\xff\x00\n".as_slice(), 2, 1);
        self.job([SMALLEST.as_bytes(), b"op=z q=\xb0\n"].concat(), 2, 2);
        self.job([SMALLEST.as_bytes(), b"op=z\xa0q=0\n"].concat(), 2, 2);
    }
}

const ONE: &str = "3ff0000000000000";

/// A Clifford line.
fn clifford(qubits: &str, words: &str) -> String {
    format!("op=c q={qubits} t={words}")
}

/// So many words of zeros.
fn zeros(words: usize) -> String {
    vec!["0000000000000000"; words].join(",")
}

/// A noise line whose n element lines follow.
fn noise(d: u8, n: usize) -> String {
    sized(d, n, n)
}

/// A noise line that n element lines follow, with a size.
fn sized(d: u8, n: usize, size: usize) -> String {
    format!("op=n p=3ff0000000000000 corr=- cond=- parity=0 d={d} n={n} size={size}\n")
}

/// Element lines without weights; the last without its LF.
fn elements(n: usize) -> String {
    vec!["x=- z=-"; n].join("\n")
}

/// Element lines with weights; the last without its LF.
fn weighted(weights: &[&str]) -> String {
    weights.iter().map(|weight| format!("w={weight} x=- z=-")).collect::<Vec<_>>().join("\n")
}

/// A list of following numbers.
#[must_use]
pub fn numbers(range: std::ops::Range<u64>) -> String {
    range.map(|entry| entry.to_string()).collect::<Vec<_>>().join(",")
}

/// A header and lines of two lengths, which have no common divisor, up to a length.
fn filled(header: &str, length: usize) -> String {
    let (short, long) = ("op=z q=0\n", "op=u g=4 q=0\n");
    let left = length - header.len();
    let longer = (0..).find(|count| (left - count * long.len()).is_multiple_of(short.len()));
    let longer = longer.expect("the lengths have no common divisor");
    let shorter = (left - longer * long.len()) / short.len();
    [header, &long.repeat(longer), &short.repeat(shorter)].concat()
}
