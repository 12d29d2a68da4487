//! The likely cause of a refusal of a job, and what to do about it. The engine has judged the job; here its refused line is looked at once more, for a
//! sentence that helps.

use crate::instructions::depolarizing_size;
use crate::{Circuit, Form, Gate, Header, MAX_BYTES, MAX_CLIFFORD_QUBITS, MAX_OUTCOMES, MAX_QUBITS, MAX_SHOTS, Number};

/// Most members of a list on a line, and most elements of a distribution.
const MOST_MEMBERS: usize = 31;
const MOST_ELEMENTS: u64 = 64;

/// What a user may do about the refusal of a job by this number at this line, from 1, if that can be said: the likely cause, for every call, in the
/// program and in the Python package.
pub(crate) fn hint(number: Number, line: u64, job: &[u8]) -> Option<String> {
    match number {
        Number::LENGTH => return Some(length(job)),
        Number::SEED => return Some("zero gives no words: take any other number below 2^64".into()),
        _ => {}
    }
    let text = String::from_utf8_lossy(job);
    let lines: Vec<&str> = text.split_terminator('\n').collect();
    let place = usize::try_from(line).ok()?.checked_sub(1)?;
    Job { before: lines.get(..place)?, line: lines.get(place)?, is_last: place + 1 == lines.len() }.hint(number)
}

fn length(job: &[u8]) -> String {
    match job.len() {
        0 => "the job is empty: is it the right file?".into(),
        bytes if bytes > MAX_BYTES => {
            "a job has at most 1,048,576 bytes: write gates together, as op=c and op=m lines".into()
        }
        _ => match job.iter().position(|byte| !is_text(*byte)) {
            Some(place) => format!("byte {} is not text: is this the right file?", place + 1),
            None if !job.starts_with(b"op=") => format!("{HEADER}; is this the right file?"),
            None => "the last line has no line end: add LF".into(),
        },
    }
}

const HEADER: &str = "the first line is the header: op=job qubits=N outcomes=N shots=N";

/// Whether a byte may stand in a text, of any encoding.
fn is_text(byte: u8) -> bool {
    byte >= b' ' && byte != 0x7f || matches!(byte, b'\t' | b'\n' | b'\r' | 0x0c)
}

/// A job around its refused line.
struct Job<'a> {
    before: &'a [&'a str],
    line: &'a str,
    is_last: bool,
}

impl Job<'_> {
    fn hint(&self, number: Number) -> Option<String> {
        match number {
            Number::FORM => self.form(),
            Number::HEADER => Some(self.header()),
            Number::EDITION => Some("edition= is 1 or 2; without this field it is 1".into()),
            Number::QUBIT => self.below("qubits", |header| header.qubits),
            Number::SHOT => self.below("shots", |header| header.shots),
            Number::OPERANDS => self.operands(),
            Number::PERMUTATION => {
                Some("s= holds each of 0 to k - 1 once, for k qubits in q=: it names places in q=, not qubits".into())
            }
            Number::CLIFFORD => Some(self.clifford()),
            Number::NEXT_ID => self.next_id(),
            Number::NOT_RECORDED => self.recorded(),
            Number::PROBABILITY => Some(format!("p= is {:?} in decimal", binary64(field(self.line, "p")?)?)),
            Number::ELEMENTS => self.elements(),
            Number::NOISE => Some("settle the job first, and walk the settled job".into()),
            Number::ANNOTATION => {
                Some("put noise lines around this line by hand, and annotate the job without it".into())
            }
            Number::SIZES => Some("give this line a corr= of its own".into()),
            Number::CONTROL => self.anticommuting(),
            Number::GROUPS => Some(format!(
                "q= has {} qubits: write noise over fewer of them, or its likeliest Paulis with d=4",
                field(self.line, "q")?.split(',').count()
            )),
            Number::SIZE => {
                let (distribution, _) = self.line.rsplit_once(" size=")?;
                Some(format!("the size of this distribution is {}", distribution_size(distribution)?))
            }
            _ => None,
        }
    }

    /// The lines before the refused one, as a circuit. If that is an element line, the lines before its noise.
    fn circuit_before(&self) -> Option<Circuit> {
        let read = |lines: &[&str]| Circuit::read((lines.join("\n") + "\n").as_bytes()).ok();
        read(self.before).or_else(|| read(&self.before[..self.last_op()?]))
    }

    /// The place of the last line before the refused one that is no element line.
    fn last_op(&self) -> Option<usize> {
        self.before.iter().rposition(|line| line.starts_with("op="))
    }

    /// What a number of the header allows.
    fn below(&self, key: &str, number: impl Fn(&Header) -> usize) -> Option<String> {
        let count = number(&self.circuit_before()?.header);
        Some(format!("the header has {key}={count}: they are 0 to {}", count.checked_sub(1)?))
    }

    fn recorded(&self) -> Option<String> {
        Some(match self.circuit_before()?.recorded() {
            0 => "no outcome is recorded before this line".into(),
            recorded => format!("before this line outcomes 0 to {} are recorded", recorded - 1),
        })
    }

    fn next_id(&self) -> Option<String> {
        let circuit = self.circuit_before()?;
        let (outcomes, next) = (circuit.header.outcomes, circuit.recorded());
        Some(if outcomes <= next {
            format!("the header has outcomes={outcomes}, and as many are recorded before this line")
        } else {
            format!("the next id is {next}: op=o and op=r lines are numbered together, from 0")
        })
    }

    fn header(&self) -> String {
        if !self.before.is_empty() {
            return "the header is the first line alone".into();
        }
        let ranges = [("qubits", 1, MAX_QUBITS), ("outcomes", 0, MAX_OUTCOMES), ("shots", 1, MAX_SHOTS)];
        let out = ranges.iter().find(|(key, least, most)| {
            let number = field(self.line, key).and_then(|value| value.parse::<usize>().ok());
            !number.is_some_and(|number| (*least..=*most).contains(&number))
        });
        match out {
            Some((key, least, most)) if self.line.starts_with("op=job ") => {
                let more = if *key == "shots" { "; a sample runs any number" } else { "" };
                format!("{key}= is from {least} to {most}{more}")
            }
            _ => HEADER.into(),
        }
    }

    fn operands(&self) -> Option<String> {
        let lists = self.line.split(' ').filter_map(|field| field.split_once('='));
        let lists = lists.filter(|(key, _)| *key != "t");
        let lists: Vec<(&str, Vec<&str>)> = lists.map(|(key, value)| (key, value.split(',').collect())).collect();
        if let Some((key, members)) = lists.iter().find(|(_, members)| members.len() > MOST_MEMBERS) {
            return Some(format!("{key}= has {} members, and a list has at most {MOST_MEMBERS}", members.len()));
        }
        let (_, operands) = lists.iter().find(|(key, _)| *key == "q")?;
        let twice = operands.iter().enumerate().find(|(place, qubit)| operands[..*place].contains(qubit));
        if let Some((_, qubit)) = twice {
            return Some(format!("q= names qubit {qubit} twice"));
        }
        if self.line.starts_with("op=c ") {
            return Some(format!("op=c takes one to {MAX_CLIFFORD_QUBITS} qubits, and q= has {}", operands.len()));
        }
        let gate = Gate::from_code(field(self.line, "g")?.parse().ok()?)?;
        let count = if gate.operands() == 1 { "one qubit" } else { "two qubits" };
        Some(format!("gate {}, {gate}, takes {count}", gate.code()))
    }

    /// The qubits on which the control and the target of a controlled Pauli act by different letters.
    fn anticommuting(&self) -> Option<String> {
        let [x, z, u, v] = ["x", "z", "u", "v"].map(|key| field(self.line, key).map(|list| list.split(',').collect()));
        let (x, z, u, v): (Vec<&str>, Vec<&str>, Vec<&str>, Vec<&str>) = (x?, z?, u?, v?);
        let has = |list: &[&str], qubit: &str| list.contains(&qubit);
        let differ = |qubit: &&str| (has(&x, qubit) && has(&v, qubit)) != (has(&z, qubit) && has(&u, qubit));
        let mut qubits: Vec<u64> =
            x.iter().chain(&z).filter(|qubit| differ(qubit)).filter_map(|qubit| qubit.parse().ok()).collect();
        qubits.sort_unstable();
        qubits.dedup();
        let named: Vec<String> = qubits.iter().map(u64::to_string).collect();
        Some(format!(
            "control and target act by different letters on an odd number of qubits, namely {}",
            named.join(",")
        ))
    }

    fn clifford(&self) -> String {
        let fault = "the images of X and Z do not commute as X and Z do, or t= has a bit past the table";
        match members(self.line, "t") {
            Some(2..) => format!("{fault}; the words of t= stand the least significant first"),
            _ => fault.into(),
        }
    }

    /// A table of another number of words than its qubits ask for.
    fn words_of_table(&self) -> Option<String> {
        let (qubits, words) = (members(self.line, "q")?, members(self.line, "t")?);
        let needed = (4 * qubits * qubits).div_ceil(64);
        let (qubits, has) = (counted(qubits, "qubit"), counted(needed, "word"));
        (words != needed).then(|| format!("the table of a Clifford on {qubits} has {has}, and t= has {words}"))
    }

    fn elements(&self) -> Option<String> {
        if let Some(count) = field(self.line, "n").filter(|_| self.line.starts_with("op=n ")) {
            return Some(format!("n={count}: a distribution has 1 to {MOST_ELEMENTS} elements"));
        }
        let weight = binary64(field(self.line, "w")?)?;
        Some(match weight {
            w if w < 0.0 || !w.is_finite() => format!("this weight is {w:?} in decimal"),
            _ => "the weights of this noise line sum to zero, or to more than the largest number".into(),
        })
    }

    /// The kind of the noise line before this element line, the place of this line among its elements, from 1, and their number.
    fn due(&self) -> Option<(&str, u64, u64)> {
        let noise = self.last_op()?;
        let (kind, count) = element_count(self.before[noise])?;
        let place = (self.before.len() - noise) as u64;
        (place <= count).then_some((kind, place, count))
    }

    /// What is wrong with the form of the line.
    fn form(&self) -> Option<String> {
        if let Some(fault) = layout(self.line) {
            return Some(fault.into());
        }
        if let Some((kind, place, count)) = self.due() {
            let form: Vec<Field> = noise_form(kind)?.elements()?.fields().collect();
            if self.line.starts_with("op=") {
                let keys = keys(&form).join(" ");
                return Some(format!(
                    "an element line is due here, number {place} of n={count}, with the fields {keys}"
                ));
            }
            let fault = fields(self.line, &form, &format!("an element line of d={kind}"));
            let missing =
                || format!("the job ends here; element lines of d={kind} that are missing: {}", count - place);
            return fault.or_else(|| self.is_last.then(missing));
        }
        let op = field(self.line, "op").filter(|_| self.line.starts_with("op="));
        let Some(op) = op else {
            return Some("a line begins with op=; element lines follow a noise line with d=3 or d=4, n of them".into());
        };
        let form = match op {
            "n" => return self.noise_form(),
            "job" if field(self.line, "edition").is_some() => Form::HeaderWithEdition,
            _ => match Form::ALL.iter().find(|form| form.op() == Some(op)) {
                Some(form) => *form,
                None => return Some(no_such_op(op)),
            },
        };
        let fault = fields(self.line, &form.fields().collect::<Vec<Field>>(), &format!("op={op}"));
        fault.or_else(|| if op == "c" { self.words_of_table() } else { of_second_edition(op) })
    }

    /// What is wrong with the form of the noise line.
    fn noise_form(&self) -> Option<String> {
        let kind = field(self.line, "d").unwrap_or_default();
        let Some(form) = noise_form(kind) else {
            return Some("a noise line is op=n p=H corr= cond= parity= d=, with d= 1, 2, 3 or 4".into());
        };
        if let Some(size) = distribution_size(self.line) {
            return Some(format!(
                "the line lacks its last field, size={size}: 'kundatrezo sizes' writes it into a job"
            ));
        }
        let fault = fields(self.line, &form.fields().collect::<Vec<Field>>(), &format!("op=n with d={kind}"));
        let condition =
            || (field(self.line, "cond")? == "-").then(|| "without a condition (cond=-) parity is 0".into());
        let ends =
            || element_count(self.line).map(|(_, count)| format!("the job ends before the {count} element lines"));
        let parity = field(self.line, "parity") == Some("1");
        fault.or_else(|| if parity { condition() } else { None }).or_else(|| if self.is_last { ends() } else { None })
    }
}

/// A field of a form: its key, and what stands for its value.
type Field = (&'static str, &'static str);

/// The form of noise lines with this `d=`.
fn noise_form(kind: &str) -> Option<Form> {
    Form::ALL.iter().copied().find(|form| form.op() == Some("n") && form.fields().any(|field| field == ("d", kind)))
}

/// The size of the distribution on a noise line that has all other fields in their form: 1, 4^k - 1 over k qubits, or n. None where it has not, or where
/// 4^k is not below 2^64.
pub(crate) fn distribution_size(line: &str) -> Option<u64> {
    let kind = field(line, "d")?;
    let without_size: Vec<Field> = noise_form(kind)?.fields().filter(|(key, _)| *key != "size").collect();
    if fields(line, &without_size, "").is_some() {
        return None;
    }
    match kind {
        "1" => Some(1),
        "2" => depolarizing_size(members(line, "q")?),
        _ => field(line, "n")?.parse().ok(),
    }
}

/// The kind of a noise line that needs element lines, and their number.
fn element_count(line: &str) -> Option<(&str, u64)> {
    let kind = field(line, "d").filter(|kind| line.starts_with("op=n ") && ["3", "4"].contains(kind))?;
    Some((kind, field(line, "n")?.parse().ok().filter(|count| *count > 0)?))
}

/// The value of a field of a line.
fn field<'a>(line: &'a str, key: &str) -> Option<&'a str> {
    line.split(' ').find_map(|field| field.split_once('=').filter(|(own, _)| *own == key)).map(|(_, value)| value)
}

/// How many members a list of a line has.
fn members(line: &str, key: &str) -> Option<usize> {
    Some(field(line, key)?.split(',').count())
}

/// A number of things.
fn counted(number: usize, thing: &str) -> String {
    format!("{number} {thing}{}", if number == 1 { "" } else { "s" })
}

/// What is wrong with a line whatever its fields are.
fn layout(line: &str) -> Option<&'static str> {
    if line.ends_with('\r') {
        Some("the line ends in CR LF: write LF alone, as 'tr -d \"\\r\"' does")
    } else if line.starts_with('\u{feff}') {
        Some("the file begins with a byte order mark: save it as plain text, without one")
    } else if line.is_empty() {
        Some("the line is blank: leave it out")
    } else if line.starts_with('#') || line.starts_with("//") {
        Some("a job has no comments")
    } else if line.contains('\t') || line.contains("  ") || line.starts_with(' ') || line.ends_with(' ') {
        Some("fields have one space between, and nothing before the first or after the last")
    } else if line.bytes().any(|byte| !is_text(byte)) {
        Some("the line has bytes that are not text: is this the right file?")
    } else if !line.is_ascii() {
        Some("the line has bytes that are not ASCII")
    } else {
        None
    }
}

/// What to say of a line that the second edition has and the first does not.
fn of_second_edition(op: &str) -> Option<String> {
    let what = match op {
        "b" => "op=b, a barrier,",
        "u" => "gate 15, ControlledY,",
        "z" => "op=z with several qubits",
        _ => return None,
    };
    Some(format!("{what} is of the second edition, whose header is op=job edition=2 qubits=N outcomes=N shots=N"))
}

fn no_such_op(op: &str) -> String {
    match Gate::from_name(op) {
        Some(gate) => format!("there is no op={op}: the gate {gate} is op=u g={}", gate.code()),
        None => {
            let mut all: Vec<&str> = Form::ALL.iter().filter_map(|form| form.op()).collect();
            all.dedup();
            format!("there is no op={op}: there are {}", all.join(", "))
        }
    }
}

fn keys(fields: &[(&str, &str)]) -> Vec<String> {
    fields.iter().map(|(key, _)| format!("{key}=")).collect()
}

/// What is wrong with the fields of a line of this form.
fn fields(line: &str, form: &[(&str, &str)], what: &str) -> Option<String> {
    let given: Vec<(&str, &str)> = line.split(' ').map(|field| field.split_once('=').unwrap_or((field, ""))).collect();
    let given = if given.first()?.0 == "op" { &given[1..] } else { &given[..] };
    if keys(given) != keys(form) {
        return Some(format!("the fields of {what} are {}, in this order", keys(form).join(" ")));
    }
    form.iter().zip(given).find_map(|((key, kind), (_, value))| self::value(key, kind, value))
}

/// What is wrong with the value of a field.
fn value(key: &str, kind: &str, value: &str) -> Option<String> {
    let number = |text: &str| text.parse::<u64>().is_ok() && (text == "0" || !text.starts_with(['0', '+']));
    let numbers = |text: &str| text.split(',').all(number);
    let rising = |text: &str| {
        let members: Vec<u64> = text.split(',').filter_map(|member| member.parse().ok()).collect();
        members.is_sorted_by(|earlier, later| earlier < later)
    };
    match kind {
        "N" if key == "g" && number(value) => {
            let is_unknown = Gate::from_code(value.parse().ok()?).is_none();
            is_unknown.then(|| "gate codes are 0 to 14, and 15 in the second edition".into())
        }
        "N" if key == "g" => Some(match Gate::from_name(value) {
            Some(gate) => format!("g= is the code of a gate: {gate} is {}", gate.code()),
            None => "g= is the code of a gate, 0 to 14, or 15 in the second edition".into(),
        }),
        "H" => hexadecimal(key, value),
        "T" => value.split(',').find_map(|word| table_word(key, word)),
        "B" => (value != "0" && value != "1").then(|| format!("{key}= is 0 or 1")),
        "N" => (!number(value)).then(|| format!("{key}= is one number, in decimal and without leading zeros")),
        "C" => (value != "-" && !number(value)).then(|| format!("{key}= is a number, or - for none")),
        "Q" if value == "-" => Some(format!("{key}= is never empty")),
        "L" if value == "-" => None,
        "L" if value.is_empty() => Some(format!("{key}= without members is written -")),
        _ if !numbers(value) => {
            Some(format!("{key}= holds numbers below 2^64, without sign or leading zeros, with commas between"))
        }
        "L" => (!rising(value)).then(|| format!("the numbers of {key}= rise strictly")),
        _ => None,
    }
}

fn is_word(value: &str) -> bool {
    value.len() == 16 && value.bytes().all(|byte| matches!(byte, b'0'..=b'9' | b'a'..=b'f'))
}

fn table_word(key: &str, word: &str) -> Option<String> {
    let wanted = || format!("{key}= is a table by words of 16 hexadecimal digits, in lower case, with commas between");
    (!is_word(word)).then(wanted)
}

fn hexadecimal(key: &str, value: &str) -> Option<String> {
    let wanted = format!("{key}= is a binary64 by its 16 hexadecimal digits, in lower case");
    match value.parse::<f64>() {
        _ if is_word(value) => None,
        Ok(number) => Some(format!("{wanted}: {value} is {:016x} (see 'kundatrezo bits')", number.to_bits())),
        _ => Some(wanted),
    }
}

/// The number of 16 hexadecimal digits.
fn binary64(digits: &str) -> Option<f64> {
    let is_word = digits.len() == 16 && digits.bytes().all(|byte| byte.is_ascii_hexdigit());
    if is_word { u64::from_str_radix(digits, 16).ok().map(f64::from_bits) } else { None }
}

#[cfg(test)]
mod tests {
    use super::*;

    fn hint_of(job: &str) -> String {
        let refusal = crate::check(job.as_bytes()).expect_err("the job is refused");
        refusal.hint(job.as_bytes()).unwrap_or_default()
    }

    #[test]
    fn likely_causes_are_named() {
        let noise = "op=n p=3fe0000000000000 corr=- cond=-";
        let cases = [
            ("op=u g=H q=0", "g= is the code of a gate: Hadamard is 4"),
            ("op=u g=cnot q=0,1", "g= is the code of a gate: ControlledX is 11"),
            ("op=u g=15 q=0", "gate 15, ControlledY, is of the second edition, whose header is op=job edition=2 "),
            ("op=u g=16 q=0", "gate codes are 0 to 14, and 15 in the second edition"),
            ("op=cx q=0,1", "there is no op=cx: the gate ControlledX is op=u g=11"),
            ("op=w q=0", "there is no op=w: there are job, u,"),
            ("op=u q=0 g=4", "the fields of op=u are g= q=, in this order"),
            ("op=u g=4 q=00", "q= holds numbers below 2^64, without sign or leading zeros"),
            ("op=u g=11 q=0,-1", "q= holds numbers below 2^64, without sign or leading zeros"),
            ("op=p x=18446744073709551616 z=-", "x= holds numbers below 2^64, without sign or leading zeros"),
            ("op=z q=0,1", "op=z with several qubits is of the second edition"),
            ("op=b q=0", "op=b, a barrier, is of the second edition"),
            ("op=b q=-", "q= is never empty"),
            ("op=p x=1,0 z=-", "the numbers of x= rise strictly"),
            ("op=p x= z=-", "x= without members is written -"),
            ("op=u g=4 q=-", "q= is never empty"),
            ("op=u g=4 q=0\r", "the line ends in CR LF"),
            ("", "the line is blank"),
            ("# a comment", "a job has no comments"),
            ("op=u  g=4 q=0", "fields have one space between"),
            ("op=z q=\u{b2}", "the line has bytes that are not ASCII"),
            ("op=z q=\0", "the line has bytes that are not text: is this the right file?"),
            ("x=0 z=-", "a line begins with op="),
            (
                "op=n p=0.001 corr=- cond=- parity=0 d=2 q=0 size=3",
                "p= is a binary64 by its 16 hexadecimal digits, in lower case: 0.001 is 3f50624dd2f1a9fc",
            ),
            (
                "op=n p=3FE0000000000000 corr=- cond=- parity=0 d=2 q=0 size=3",
                "p= is a binary64 by its 16 hexadecimal digits, in lower case",
            ),
            ("op=c q=0 t=9", "t= is a table by words of 16 hexadecimal digits"),
            ("op=c q=0 t=0000000000000009,9", "t= is a table by words of 16 hexadecimal digits"),
            (
                "op=c q=0 t=0000000000000009,0000000000000000",
                "the table of a Clifford on 1 qubit has 1 word, and t= has 2",
            ),
            ("op=c q=0,1,2,3,4 t=0000000000000000", "the table of a Clifford on 5 qubits has 2 words, and t= has 1"),
            ("op=n p=3fe0000000000000 corr=-1 cond=- parity=0 d=2 q=0 size=3", "corr= is a number, or - for none"),
            (&format!("{noise} parity=1 d=2 q=0 size=3"), "without a condition (cond=-) parity is 0"),
            (&format!("{noise} parity=0 d=5 q=0 size=3"), "a noise line is op=n"),
            (
                &format!("{noise} parity=0 d=2 x=0 z=- size=1"),
                "the fields of op=n with d=2 are p= corr= cond= parity= d= q= size=, in this order",
            ),
            (
                &format!("{noise} parity=0 d=1 x=0 z=-"),
                "the line lacks its last field, size=1: 'kundatrezo sizes' writes",
            ),
            (&format!("{noise} parity=0 d=2 q=1,0"), "the line lacks its last field, size=15:"),
            (&format!("{noise} parity=0 d=3 n=2\nx=0 z=-\nx=- z=0"), "the line lacks its last field, size=2:"),
            (&format!("{noise} parity=0 d=1 size=1 x=0 z=-"), "the fields of op=n with d=1 are p= corr="),
            (
                &format!("{noise} parity=0 d=2 q=1,0 size=015"),
                "size= is one number, in decimal and without leading zeros",
            ),
            (&format!("{noise} parity=0 d=2 q=1,0 size=16"), "the size of this distribution is 15"),
            (
                &format!("{noise} parity=0 d=4 n=1 size=2\nw=3ff0000000000000 x=0 z=-"),
                "the size of this distribution is 1",
            ),
            (&format!("{noise} parity=0 d=3 n=2 size=2"), "the job ends before the 2 element lines"),
            (
                &format!("{noise} parity=0 d=3 n=3 size=3\nx=0 z=-"),
                "the job ends here; element lines of d=3 that are missing: 2",
            ),
            (&format!("{noise} parity=0 d=4 n=1 size=1\nx=0 z=-"), "the fields of an element line of d=4 are w= x= z="),
            (
                &format!("{noise} parity=0 d=3 n=2 size=2\nx=0 z=-\nop=z q=0\nop=z q=1"),
                "an element line is due here, number 2 of n=2, with the fields x= z=",
            ),
            (
                &format!("{noise} parity=0 d=4 n=1 size=1\nw=0.5 x=0 z=-"),
                "w= is a binary64 by its 16 hexadecimal digits, in lower case: 0.5 is 3fe0000000000000",
            ),
            ("op=job qubits=1 outcomes=0 shots=1", "the header is the first line alone"),
            ("op=z q=2", "the header has qubits=2"),
            ("op=u g=11 q=0", "gate 11, ControlledX, takes two qubits"),
            ("op=u g=4 q=0,1", "gate 4, Hadamard, takes one qubit"),
            ("op=u g=11 q=1,1", "q= names qubit 1 twice"),
            ("op=m s=1,2 q=0,1", "s= holds each of 0 to k - 1 once"),
            ("op=c q=0 t=0000000000000001", "the images of X and Z do not commute"),
            ("op=c q=0,1,0,1,0,1,0,1,0 t=0000000000000001", "q= names qubit 0 twice"),
            ("op=o x=- z=0 id=1", "the next id is 0"),
            ("op=r id=0 angle=0\nop=r id=1 angle=0", "the header has outcomes=1, and as many are recorded"),
            ("op=t shot=0 id=0", "no outcome is recorded before this line"),
            ("op=r id=0 angle=0\nop=t shot=0 id=4", "before this line outcomes 0 to 0 are recorded"),
            ("op=i shot=3 x=0 z=-", "the header has shots=3"),
            (
                "op=k x=0 z=- u=- v=0",
                "control and target act by different letters on an odd number of qubits, namely 0",
            ),
            (
                "op=k x=0,1 z=1 u=0 v=1",
                "control and target act by different letters on an odd number of qubits, namely 1",
            ),
            ("op=n p=3ff8000000000000 corr=- cond=- parity=0 d=2 q=0 size=3", "p= is 1.5 in decimal"),
            (&format!("{noise} parity=0 d=3 n=65 size=65\nx=0 z=-"), "n=65: a distribution has 1 to 64 elements"),
            (&format!("{noise} parity=0 d=4 n=1 size=1\nw=bff0000000000000 x=0 z=-"), "this weight is -1.0 in decimal"),
            (
                &format!("{noise} parity=0 d=4 n=1 size=1\nw=0000000000000000 x=0 z=-"),
                "the weights of this noise line sum to zero",
            ),
        ];
        for (lines, expected) in cases {
            let said = hint_of(&format!("op=job qubits=2 outcomes=1 shots=3\n{lines}\n"));
            assert!(said.starts_with(expected), "{lines:?}: {said:?}");
        }
        let many: Vec<String> = (0..32).map(|qubit| qubit.to_string()).collect();
        let said = hint_of(&format!("op=job qubits=99 outcomes=0 shots=1\nop=p x={} z=-\n", many.join(",")));
        assert_eq!(said, "x= has 32 members, and a list has at most 31");
        let nine = vec!["0000000000000000"; 40].join(",");
        let said = hint_of(&format!("op=job qubits=99 outcomes=0 shots=1\nop=c q={} t={nine}\n", many[..9].join(",")));
        assert_eq!(said, "op=c takes one to 8 qubits, and q= has 9");
        let reversed = "0000000801002004,0080100200400801";
        let said =
            hint_of(&format!("op=job qubits=99 outcomes=0 shots=1\nop=c q={} t={reversed}\n", many[..5].join(",")));
        assert!(said.ends_with("the words of t= stand the least significant first"), "{said}");
    }

    #[test]
    fn headers_and_lengths() {
        let cases = [
            ("", "the job is empty"),
            ("op=job qubits=1 outcomes=0 shots=1", "the last line has no line end"),
            ("op=z q=0\n", "the first line is the header"),
            (
                "a text\nof another kind",
                "the first line is the header: op=job qubits=N outcomes=N shots=N; is this the right file?",
            ),
            ("op=job qubits=1 outcomes=0 shots=1\n\0", "byte 36 is not text: is this the right file?"),
            ("\u{7f}ELF\u{2}\u{1}", "byte 1 is not text: is this the right file?"),
            ("\u{feff}op=job qubits=1 outcomes=0 shots=1\n", "the file begins with a byte order mark"),
            ("op=job qubits=0 outcomes=0 shots=1\n", "qubits= is from 1 to 256"),
            ("op=job qubits=1 outcomes=1025 shots=1\n", "outcomes= is from 0 to 1024"),
            ("op=job qubits=1 outcomes=0 shots=10000\n", "shots= is from 1 to 4096; a sample runs any number"),
            ("op=job edition=2 qubits=1 outcomes=0 shots=0\n", "shots= is from 1 to 4096"),
            ("op=job edition=3 qubits=1 outcomes=0 shots=1\n", "edition= is 1 or 2"),
            ("op=job edition=3.1 qubits=1 outcomes=0 shots=1\n", "edition= is one number"),
            ("op=job qubits=1 shots=1\n", "the fields of op=job are qubits= outcomes= shots=, in this order"),
            (
                "op=job qubits=1 outcomes=0 shots=1 edition=2\n",
                "the fields of op=job are edition= qubits= outcomes= shots=, in this order",
            ),
            ("op=job edition=2 qubits=2 outcomes=0 shots=1\nop=b q=1,1\n", "q= names qubit 1 twice"),
            ("op=job edition=2 qubits=2 outcomes=0 shots=1\nop=z q=0,1,0\n", "q= names qubit 0 twice"),
            ("op=job edition=2 qubits=2 outcomes=0 shots=1\nop=u g=15 q=0\n", "gate 15, ControlledY, takes two qubits"),
            ("op=job edition=2 qubits=2 outcomes=0 shots=1\nop=z q=2\n", "the header has qubits=2"),
        ];
        for (job, expected) in cases {
            assert!(hint_of(job).starts_with(expected), "{job:?}: {}", hint_of(job));
        }
        assert!(hint_of(&"\n".repeat(MAX_BYTES + 1)).starts_with("a job has at most 1,048,576 bytes"));
    }

    /// Whatever the bytes are, there is a hint or none.
    #[test]
    fn damaged_jobs() {
        let job = include_bytes!("../../../examples/bell.job");
        let mut words = crate::Xorshift::new(1);
        let mut below = |limit: usize| usize::try_from(words.next().unwrap_or(0) % limit as u64).expect("small");
        for _ in 0..20_000 {
            let mut damaged = job.to_vec();
            for _ in 0..=below(3) {
                let place = below(damaged.len());
                match below(3) {
                    0 => damaged[place] = b"\n\r =,-0123456789abopnxz\xff"[below(23)],
                    1 => drop(damaged.remove(place)),
                    _ => damaged.insert(place, b" =,\n0"[below(5)]),
                }
            }
            if let Err(refusal) = crate::check(&damaged) {
                _ = refusal.hint(&damaged);
            }
        }
    }
}
