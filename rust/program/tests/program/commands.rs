//! The program on files, options and refusals.

use crate::common::{Done, finish, folder, kundatrezo};
use kundatrezo::{MAX_BYTES, Xorshift};
use std::fs;
use std::path::{Path, PathBuf};
use std::process::Command;

const SESSION: &str = include_str!("../../../../examples/bell.job");

/// Noise that reads the main list in its first line and the second one, from base + 3 on, in the other; the first by the bits of outcome 0.
const NOISY: &str = "op=job qubits=2 outcomes=2 shots=70
op=r id=0 angle=0
op=n p=3fe0000000000000 corr=- cond=0 parity=1 d=2 q=0 size=3
op=n p=3fe0000000000000 corr=3 cond=- parity=0 d=1 x=1 z=- size=1
op=o x=- z=1 id=1
";

fn call(arguments: &str, stdin: impl AsRef<[u8]>) -> Done {
    kundatrezo(arguments.split_whitespace(), stdin.as_ref())
}

fn bytes_of(words: &[u64]) -> Vec<u8> {
    words.iter().flat_map(|word| word.to_le_bytes()).collect()
}

/// A file with these bytes, as an argument.
fn file(folder: &Path, name: &str, bytes: impl AsRef<[u8]>) -> String {
    let path = folder.join(name);
    fs::write(&path, bytes).expect("the file can be written");
    argument(path)
}

fn argument(path: PathBuf) -> String {
    path.into_os_string().into_string().expect("a path in plain text")
}

#[test]
fn each_command_does_its_work() {
    let folder = folder("each_command");
    let session = file(&folder, "session", SESSION);
    let on_session = |command: &str, options: &str| call(&format!("{command} {session} {options}"), "");
    let first = "ok=1 qubits=2 outcomes=2 shots=3\n";
    assert_eq!(on_session("check", ""), Done::printed(first.replace('\n', " recorded=2 lines=7\n")));
    assert_eq!(on_session("run", ""), Done::printed(format!("{first}id=0 delta=010\nid=1 delta=001\n")));
    assert_eq!(on_session("settle", ""), Done::printed(SESSION));
    assert_eq!(on_session("walk", "--shot 1 --set 0,1"), Done::printed("ok=1 count=1\n"));
    assert_eq!(on_session("walk", "--set=- --shot=2"), Done::printed("ok=1 count=0\n"));
    assert_eq!(on_session("locations", ""), Done::printed("ok=1 locations=10\n"));
    assert_eq!(on_session("correlation", ""), Done::printed("ok=1\n"));
    let noise = "op=n p=3fe0000000000000 corr=- cond=- parity=0 d=2 q=0 size=3";
    let measured = "op=job qubits=1 outcomes=1 shots=1\nop=o x=- z=0 id=0\n";
    let annotated = measured.replace("op=o", &format!("{noise}\nop=o"));
    assert_eq!(call("annotate - --p 0.5", measured), Done::printed(annotated.clone()));
    assert_eq!(call("annotate - --p-bits 3fe0000000000000", measured), Done::printed(annotated.clone()));
    let below = Done {
        stderr: "note: p is below zero: no fault will fall\n".into(),
        ..Done::printed(annotated.replace("3fe", "bfe"))
    };
    assert_eq!(call("annotate - --p -0.5", measured), below);
    let out = argument(folder.join("annotated"));
    assert_eq!(call(&format!("annotate - --p 0.5 --output {out}"), measured), Done::printed(""));
    assert_eq!(fs::read_to_string(out).ok(), Some(annotated));
}

#[test]
fn words_lie_in_files() {
    let folder = folder("words");
    // the condition holds in shots 1 and 69; in shot 1 a fault falls and is Z, in shot 69 the word is not below one half
    let noiseless = file(&folder, "noiseless", bytes_of(&[0b10, 1 << 5, 0, 0]));
    let mut main = vec![0; 71];
    main[2] = 1;
    main[70] = u64::MAX;
    let main = file(&folder, "main", bytes_of(&main));
    let mut second = vec![u64::MAX; 10 + 3 + 70];
    second[10 + 3 + 64] = 0;
    let second = file(&folder, "second", bytes_of(&second));
    let options = format!("- --main {main} --second {second} --base 10 --noiseless {noiseless}");
    let settled = call(&format!("settle {options}"), NOISY);
    let injected = |noise: &str, injection: &str, job: &str| {
        let start = job.find(noise).expect("the line is there");
        let end = start + job[start..].find('\n').expect("it ends");
        format!("{}{injection}{}", &job[..start], &job[end..])
    };
    let expected = injected("op=n", "op=i shot=1 x=- z=0", NOISY);
    let expected = injected("op=n", "op=i shot=64 x=1 z=-", &expected);
    assert_eq!(settled, Done::printed(expected));
    let [x, z, deltas] = ["x", "z", "deltas"].map(|name| argument(folder.join(name)));
    let files = format!("--x {x} --z {z} --deltas {deltas}");
    let done = call(&format!("run {options} {files}"), NOISY);
    assert_eq!(done, Done::printed("ok=1 qubits=2 outcomes=2 shots=70\nwords=71 skip=71 second=83\n"));
    let rows = [(x, [0, 0, 0, 1]), (z, [0b10, 0, 0, 0]), (deltas, [0, 0, 0, 1])];
    for (path, words) in &rows {
        assert_eq!(fs::read(path).ok(), Some(bytes_of(words)), "{path}");
    }
    // a refusal leaves files as they were
    let spent = call(&format!("run - --noiseless {noiseless} {files}"), NOISY);
    assert_eq!((spent.status, spent.stdout.as_slice()), (1, b"".as_slice()));
    assert_eq!(fs::read(&rows[0].0).ok(), Some(bytes_of(&[0, 0, 0, 1])));
}

/// What a run prints, without the line on words.
fn session(done: &Done) -> String {
    let text = String::from_utf8_lossy(&done.stdout);
    let lines: Vec<&str> =
        text.lines().filter(|line| !line.starts_with("words=") && !line.starts_with("second=")).collect();
    lines.join("\n")
}

#[test]
fn seeds_make_the_words_of_the_stated_rule() {
    let folder = folder("seeds");
    let of_seed = |seed| Xorshift::new(seed);
    let of_state = |state| Xorshift::from_state(state).expect("not zero");
    let words = |words: Xorshift, count| -> Vec<u64> { words.take(count).collect() };
    let job = NOISY.replace("cond=0 parity=1", "cond=- parity=0");
    let cases = [
        (words(of_seed(0), 5000), words(of_seed(1), 300), "--seed 0", "--second-seed 1"),
        (words(of_state(123_456_789), 5000), words(of_state(5), 300), "--state 123456789", "--second-state 5"),
    ];
    for (place, (main, second, made, second_made)) in cases.iter().enumerate() {
        let main = file(&folder, &format!("main{place}"), bytes_of(main));
        let second = file(&folder, &format!("second{place}"), bytes_of(second));
        let lent = format!("--main {main} --skip 1000 --second {second} --base 40");
        let made = format!("{made} --skip 1000 {second_made} --base 40");
        for command in ["settle", "run"] {
            let by_file = call(&format!("{command} - {lent}"), &job);
            assert_eq!(by_file.status, 0, "{by_file:?}");
            assert_eq!(call(&format!("{command} - {made}"), &job), by_file);
        }
        let settled = |options: &str| call(&format!("settle - {options}"), &job).stdout;
        let others = ["--skip 1000", second_made, "--base 40"];
        let others = others
            .map(|option| made.replace(option, &format!("{} 12345", option.split(' ').next().unwrap_or_default())));
        assert!(others.iter().all(|other| settled(other) != settled(&made)));
    }
    // each shot faults and reads two words
    let line = "op=n p=3ff0000000000000 corr=- cond=- parity=0 d=2 q=0 size=3\n";
    let job = format!("op=job qubits=1 outcomes=0 shots=64\n{}", line.repeat(1000));
    let printed = "ok=1 qubits=1 outcomes=0 shots=64\nwords=128000 skip=128000\n";
    assert_eq!(call("run - --seed 5", &job), Done::printed(printed));
    // a place that no list reaches
    let far = NOISY.replace("corr=3", "corr=18446744073709551615");
    let done = call("run - --seed 5 --second-seed 6", &far);
    assert!(done.stderr.starts_with("refused: 14 (a needed draw lies past its list) at line 4: op=n "), "{done:?}");
    assert!(done.stderr.contains("\nhint: a list has at most 268435456 words"), "{done:?}");
    assert_eq!(call("run - --seed 5 --second-seed 6 --base 1", &far).status, 0);
}

/// A run says how many words it has read, and the next one of a series goes on there: two jobs of one noise line draw what a job of two draws.
#[test]
fn a_series_goes_on_where_the_last_run_stopped() {
    let header = "op=job qubits=2 outcomes=2 shots=100\n";
    let part = |qubit: usize, id: usize| {
        format!("op=n p=3fd0000000000000 corr=- cond=- parity=0 d=2 q={qubit} size=3\nop=o x=- z={qubit} id={id}\n")
    };
    let whole = call("run - --seed 7", format!("{header}{}{}", part(0, 0), part(1, 1)));
    let first = call("run - --seed 7", format!("{header}{}", part(0, 0)));
    let printed = String::from_utf8(first.stdout).expect("text");
    let (_, report) = printed.rsplit_once("words=").expect("it says how many");
    let (words, skip) = report.trim_end().split_once(" skip=").expect("and how to go on");
    assert_eq!(words, skip);
    assert!(words.parse::<u32>().is_ok_and(|words| (101..200).contains(&words)), "{words}");
    let second = call(&format!("run - --seed 7 --skip {skip}"), format!("{header}{}", part(1, 0)));
    let second = String::from_utf8(second.stdout).expect("text");
    let row =
        |text: &str, id: &str| text.lines().find_map(|line| Some(line.strip_prefix(id)?.to_owned())).expect("a row");
    let whole = String::from_utf8(whole.stdout).expect("text");
    assert_eq!(row(&whole, "id=0 "), row(&printed, "id=0 "));
    assert_eq!(row(&whole, "id=1 "), row(&second, "id=0 "));
    assert_eq!(
        row(&whole, "words=").split_once(" skip="),
        row(&second, "words=").split_once(" skip=").map(|(_, skip)| (skip, skip))
    );
    // the second list is said, too
    let done = call("run - --seed 1 --second-seed 2 --base 10", NOISY);
    assert!(done.stdout.ends_with(b" second=83\n"), "{done:?}");
}

#[test]
fn an_endless_file_is_read_as_far_as_needed() {
    let noise =
        "op=job qubits=1 outcomes=0 shots=64\nop=n p=3fe0000000000000 corr=- cond=- parity=0 d=1 x=0 z=- size=1\n";
    let done = call("run - --main /dev/urandom", noise);
    assert_eq!((done.status, session(&done).as_str()), (0, "ok=1 qubits=1 outcomes=0 shots=64"));
    assert!(done.stdout.ends_with(b"words=64 skip=64\n"), "{done:?}");
    assert_eq!(call("run - --main /dev/zero --second /dev/zero --noiseless /dev/zero", NOISY).status, 0);
    // a bound, for a file as for a seed
    for source in ["--main /dev/zero", "--seed 1"] {
        let done = call(&format!("run - {source} --words 63"), noise);
        assert!(done.stderr.starts_with("refused: 14 "), "{done:?}");
        assert!(done.stderr.ends_with("\nhint: --words allows no more than 63 words\n"), "{done:?}");
        assert_eq!(call(&format!("run - {source} --words 64"), noise).status, 0);
    }
    // words from standard input, which can be read once
    let folder = folder("input");
    let job = file(&folder, "job", noise);
    let words: Vec<u64> = Xorshift::new(9).take(64).collect();
    let by_seed = call(&format!("run {job} --seed 9"), "");
    assert_eq!(kundatrezo(["run", &job, "--main", "-"], &bytes_of(&words)), by_seed);
    let done = kundatrezo(["run", &job, "--main", "-"], &bytes_of(&words[1..]));
    assert!(
        done.stderr
            .ends_with("hint: the main list has 63 words and this line needs more: lend a longer one, or --seed N\n"),
        "{done:?}"
    );
    assert_eq!(call("run - --main -", noise).stderr, "kundatrezo: standard input can be read for one thing only\n");
}

/// What an error model can't say is said on standard error.
#[test]
fn models_come_with_notes() {
    let line = |p: &str, rest: &str| format!("op=n p={p} corr=5 cond={rest} d=1 x=0 z=- size=1\n");
    let model = |noise: [String; 2]| {
        let job =
            format!("op=job qubits=1 outcomes=2 shots=1\nop=r id=0 angle=0\n{}op=o x=- z=0 id=1\n", noise.concat());
        let done = call("dem - --detector 1", job);
        assert_eq!(done.status, 0, "{done:?}");
        (String::from_utf8(done.stdout).expect("text"), done.stderr)
    };
    let (one, other) = ("3fe0000000000000", "3fd0000000000000");
    assert_eq!(model([one, one].map(|p| line(p, "- parity=0"))), ("detector D0\n".into(), String::new()));
    let (text, notes) = model([one, other].map(|p| line(p, "- parity=0")));
    assert_eq!(text, "error(0.5) D0\nerror(0.25) D0\n");
    assert_eq!(notes, "note: lines with corr=5 differ in p, condition, kind or size, and are taken for independent\n");
    let (_, notes) = model([line(one, "- parity=0"), line(one, "0 parity=1")]);
    assert!(notes.starts_with("note: noise with a condition has") && notes.lines().count() == 2, "{notes}");
}

#[test]
fn refusals_are_said_in_words() {
    let refused = |arguments: &str, job: &str, text: &str| {
        let done = call(arguments, job);
        let (report, hint) = done.stderr.split_once("\nhint: ").expect("a hint");
        assert_eq!((done.status, done.stdout.as_slice(), report), (1, b"".as_slice(), text));
        hint.trim_end().to_owned()
    };
    let header = "op=job qubits=1 outcomes=1 shots=1\n";
    let gate = format!("{header}op=u g=4 q=0\nop=u g=4 q=7\n");
    let text = "refused: 4 (a qubit not below the header's qubits) at line 3: op=u g=4 q=7";
    for arguments in ["check -", "run -", "settle -", "walk - --shot 0 --set -", "annotate - --p 0.5", "locations -"] {
        refused(arguments, &gate, text);
    }
    for arguments in ["correlation -", "faults - --group 0", "dem - --detector 0"] {
        refused(arguments, &gate, text);
    }
    let hint = refused("annotate - --p nan", header, "refused: 11 (p is NaN or above 1)");
    assert_eq!(hint, "the probability of --p or --p-bits is NaN");
    // the one cause of the number's that it is
    let shot = "refused: 17 (the walk's shot not below the header's shots)";
    let list = "refused: 17 (a set or group cut short, not strictly rising, or with an outcome that is not recorded)";
    assert_eq!(
        kundatrezo::Number::WALK.words(),
        format!("{}; {}", &shot[13..shot.len() - 1], &list[13..list.len() - 1])
    );
    let hint = refused("walk - --shot 0 --set 1,0", header, list);
    assert_eq!(hint, "the job records no outcome");
    assert_eq!(refused("walk - --shot 1 --set -", header, shot), "the job's shots are 0 to 0");
    assert_eq!(refused("faults - --group 0", header, list), "the job records no outcome");
    let recorded = format!("{header}op=r id=0 angle=0\n");
    for (arguments, what) in [
        ("walk - --shot 0 --set 1", "--set"),
        ("faults - --group 0 --group 0,0", "the group 0,0"),
        ("dem - --detector 0 --detector 3,2", "the detector 2,3"),
        ("dem - --detector 0 --observable 1", "the observable 1"),
    ] {
        let hint = format!("{what}: it names recorded outcomes, 0 to 0, each once");
        assert_eq!(refused(arguments, &recorded, list), hint);
    }
    // the order in which outcomes are named plays no part
    let two = "op=job qubits=1 outcomes=2 shots=1\nop=i shot=0 x=0 z=-\nop=o x=- z=0 id=0\nop=o x=- z=0 id=1\n";
    assert_eq!(call("walk - --shot 0 --set 1,0", two), Done::printed("ok=1 count=0\n"));
    let noisy = two.replace("op=i shot=0 x=0 z=-", "op=n p=3fe0000000000000 corr=- cond=- parity=0 d=1 x=0 z=- size=1");
    for arguments in ["faults - --group", "dem - --observable 0 --detector"] {
        let done = call(&format!("{arguments} 1,0"), &noisy);
        assert_eq!((done.status, &done), (0, &call(&format!("{arguments} 0,1"), &noisy)));
    }
    // a file that is no job
    let length = "refused: 1 (the job is empty, longer than 1,048,576 bytes, or has no LF at its end)";
    assert_eq!(refused("check -", "\u{7f}ELF\0", length), "byte 1 is not text: is this the right file?");
    assert_eq!(refused("check -", header.trim_end(), length), "the last line has no line end: add LF");
    let many = format!("faults -{}", " --group 0".repeat(17));
    let hint = refused(&many, &recorded, &format!("refused: {}", kundatrezo::Number::GROUPS));
    assert_eq!(hint, "each --group is a group, and a table has 1 to 16 of them");
    let words = "refused: 13 (lent words too few)";
    let hint = refused("run - --noiseless /dev/null", header, words);
    assert!(hint.starts_with("--noiseless has 0 words, and needs 1: "), "{hint}");
    let noisy = format!("{header}op=n p=3ff0000000000000 corr=- cond=- parity=0 d=1 x=0 z=- size=1\n");
    let room = "refused: 15 (the text is longer than the lent bytes or 1,048,576)";
    let done = call("settle - --room 10 --seed 9", &noisy);
    assert!(done.stderr.starts_with(&format!("{room}; the text needs ")), "{done:?}");
    refused("annotate - --p 0.5 --room 10", &gate.replace("q=7", "q=0"), room);
    let spent =
        format!("refused: 14 (a needed draw lies past its list) at line 2: {}", noisy.lines().last().expect("a line"));
    let hint = refused("run -", &noisy, &spent);
    assert_eq!(hint, "there is no main list: --seed N makes as many words as are needed");
    let hint = refused("run -", &noisy.replace("corr=-", "corr=5"), &spent.replace("corr=-", "corr=5"));
    assert_eq!(hint, "there is no second list: --second-seed N makes as many words as are needed");
    // bytes that are no text, and a line that is cut
    let done = kundatrezo(["check", "-"], b"op=job qubits=1 outcomes=0 shots=1\nop=z q=\xff\x1b\n");
    assert!(done.stderr.contains(" at line 2: op=z q=\\xff\\x1b\n"), "{done:?}");
    let done = call("check -", format!("{header}op=z q={}\n", "9".repeat(1000)));
    assert!(done.stderr.contains(&format!(" at line 2: op=z q={}..\n", "9".repeat(93))), "{done:?}");
}

#[test]
fn jobs_up_to_the_limits() {
    let largest = "op=job qubits=256 outcomes=1024 shots=4096\n";
    let recorded: String = (0..1024).map(|id| format!("op=o x=- z={} id={id}\n", id % 256)).collect();
    let noise = "op=n p=3ff0000000000000 corr=- cond=- parity=0 d=1 x=255 z=- size=1\n";
    let done = call("run - --seed 1", format!("{largest}{noise}{recorded}"));
    let printed = String::from_utf8(done.stdout).expect("text");
    let rows: Vec<&str> = printed.lines().filter(|line| line.starts_with("id=")).collect();
    assert_eq!(rows.len(), 1024);
    assert!(printed.ends_with("\nwords=4096 skip=4096\n"));
    assert_eq!(rows[1023], format!("id=1023 delta={}", "1".repeat(4096)));
    assert_eq!(rows[1022], format!("id=1022 delta={}", "0".repeat(4096)));
    let header = "op=job qubits=1 outcomes=0 shots=1\n";
    let lines = |bytes: usize| "op=p x=- z=-\n".repeat((bytes - header.len()) / 13);
    let longest = format!("{header}{}", lines(MAX_BYTES));
    assert_eq!(longest.len(), MAX_BYTES);
    assert_eq!(call("settle -", &longest), Done::printed(longest.clone()));
    let done = call("check -", format!("{longest}\n"));
    assert!(
        done.stderr.starts_with(&format!("refused: {}\nhint: a job has at most", kundatrezo::Number::LENGTH)),
        "{done:?}"
    );
}

#[test]
fn arguments_at_fault() {
    let folder = folder("arguments");
    let odd = file(&folder, "odd", [0; 9]);
    let cases = [
        ("", "a command is missing"),
        ("simulate -", "there is no command 'simulate'; 'kundatrezo --help' names those that there are"),
        ("smaple -", "there is no command 'smaple' (did you mean sample?); 'kundatrezo --help' names"),
        ("--verison", "there is no command '--verison' (did you mean --version?); 'kundatrezo --help' names"),
        ("help smaple", "there is no command 'smaple' (did you mean sample?); 'kundatrezo --help' names"),
        ("help run walk", "one command is wanted, and 'walk' is one more; see 'kundatrezo help --help'"),
        ("run - --sede 1", "'run' has no option '--sede' (did you mean --seed?); see 'kundatrezo run --help'"),
        ("run - --noise 1", "'run' has no option '--noise' (did you mean --noiseless?)"),
        ("check", "a job is missing"),
        ("check - -", "one job is wanted"),
        ("check - --seed 1", "'check' has no option '--seed'"),
        ("run - --seed", "the option --seed wants a value"),
        ("run - --seed 1 --seed 2", "the option --seed is given twice"),
        ("run - --seed x", "the value of --seed is to be a number below 2^64, not 'x'"),
        ("run - --seed 18446744073709551616", "the value of --seed is to be a number below 2^64"),
        ("make --qubits 1 --shots 1 --lines 1 --seed 1", "--outcomes is wanted\n"),
        ("make", "--qubits, --outcomes, --shots, --lines and --seed are wanted\n"),
        ("make 5", "no argument is wanted"),
        ("fill --run-seed 1", "--words is wanted for words that are made"),
        ("fill --words 5", "--state or --run-seed is wanted"),
        ("fill --words 5 --skip 1", "--state or --run-seed is wanted"),
        ("fill --words 5 --state 1 --run-seed 1", "of --run-seed, --state one at most can be given"),
        ("run - --seed 1 --main /dev/null", "of --main, --seed, --state one at most can be given"),
        ("run - --seed 1 --state 1", "of --main, --seed, --state one at most can be given"),
        ("run - --seed 1 --second-seed 1", "the words of the two lists are to differ"),
        ("run - --skip 1", "--skip wants --main, --seed or --state"),
        ("run -x", "'run' has no option '-x' (after --, a name may begin with -)"),
        ("run -- -x", "-x: "),
        ("bits", "NUMBER is missing"),
        ("bits 0.5 half", "'half' is not a number in decimal"),
        ("decimal 0.5", "'0.5' is not 16 hexadecimal digits"),
        ("completions", "SHELL is to be one of bash, zsh, fish"),
        ("completions sh", "SHELL is to be one of bash, zsh, fish"),
        ("man man", "no argument is wanted"),
        ("walk - --shot 0", "--set is wanted\n"),
        ("walk -", "--shot and --set are wanted\n"),
        ("run - --shots 1000", "--shots of 'run' names a file (./5 one that is called 5); the number of shots is the "),
        ("walk - --shot 0 --set 1,,2", "the value of --set is to be numbers with commas between"),
        ("share --seed 1 --words 5", "--shares is wanted"),
        ("share --seed 1 --shares 5", "--words is wanted for words that are made"),
        ("share - --shares 5", "no argument is wanted"),
        ("run - --account /nonexistent/account", "--account and --caller go together"),
        ("run - --caller 0", "--account and --caller go together"),
        ("run - --account /nonexistent/account --caller 0", "/nonexistent/account: "),
        ("dem -", "--detector or --observable is wanted"),
        ("faults - --group 1;2", "the value of --group is to be numbers with commas between, or -, not '1;2'"),
        ("faults - --group 0 --output x --output y", "the option --output is given twice"),
        ("annotate -", "either --p or --p-bits is wanted"),
        ("annotate - --p 0 --p-bits 0000000000000000", "either --p or --p-bits is wanted"),
        ("annotate - --p-bits 3FF", "the value of --p-bits is to be 16 hexadecimal digits"),
        ("check /nonexistent/job", "/nonexistent/job: "),
        ("run - --main /nonexistent/words", "/nonexistent/words: "),
        ("run - --deltas /nonexistent/deltas", "/nonexistent/deltas: "),
    ];
    for (arguments, text) in cases {
        let done = call(arguments, SESSION);
        assert_eq!((done.status, done.stdout.as_slice()), (2, b"".as_slice()), "{arguments}");
        assert!(done.stderr.starts_with(&format!("kundatrezo: {text}")), "{arguments}: {}", done.stderr);
    }
    let noisy =
        "op=job qubits=1 outcomes=0 shots=9\nop=n p=3fe0000000000000 corr=- cond=- parity=0 d=1 x=0 z=- size=1\n";
    let done = call(&format!("run - --main {odd}"), noisy);
    assert!(done.stderr.ends_with("odd: its bytes are no whole number of 64-bit words\n"), "{done:?}");
}

#[test]
fn numbers_are_converted_both_ways() {
    let cases = [
        ("0.001", "3f50624dd2f1a9fc"),
        ("1.0", "3ff0000000000000"),
        ("5e-324", "0000000000000001"),
        ("-0.0", "8000000000000000"),
    ];
    for (decimal, bits) in cases {
        assert_eq!(call(&format!("bits -- {decimal}"), ""), Done::printed(format!("{bits}\n")));
        assert_eq!(call(&format!("decimal {bits}"), ""), Done::printed(format!("{decimal}\n")));
    }
    assert_eq!(call("bits 1e-3 0.5", ""), Done::printed("3f50624dd2f1a9fc\n3fe0000000000000\n"));
}

/// A short job that names a far place of the second list takes no memory for it unless an option allows it.
#[test]
fn memory_for_the_second_list_is_bounded() {
    let far = |corr: u64| {
        format!(
            "op=job qubits=1 outcomes=0 shots=1\nop=n p=3fe0000000000000 corr={corr} cond=- parity=0 d=1 x=0 z=- size=1\n"
        )
    };
    let bounded = |arguments: &str, job: &str| {
        let script = format!("ulimit -v 150000; exec \"$0\" {arguments}");
        finish(Command::new("sh").arg("-c").arg(script).arg(env!("CARGO_BIN_EXE_kundatrezo")), job.as_bytes())
    };
    for arguments in [
        "run - --second-seed 1",
        "settle - --second-seed 1",
        "run - --second /dev/zero",
        "run - --second-seed 1 --base 7",
    ] {
        let done = bounded(arguments, &far(268_435_000));
        assert!(done.status == 1 && done.stderr.starts_with("refused: 14 "), "{arguments}: {done:?}");
        let place = if arguments.ends_with('7') { 268_435_007 } else { 268_435_000 };
        let hint = format!(
            "\nhint: this line reads the second list from place {place} on, and the list may have 33554432 words (256 \
             MiB); --second-words N allows up to 268435456, 8 bytes each\n"
        );
        assert!(done.stderr.ends_with(&hint), "{done:?}");
    }
    // the limit and its neighbours, lower and raised
    let limits = [(30, 30, 1), (29, 30, 0), (33_554_432, 33_554_432, 1), (33_554_432, 33_554_434, 0)];
    for (corr, words, status) in limits {
        let done = call(&format!("run - --second-seed 1 --second-words {words}"), far(corr));
        assert_eq!(done.status, status, "{corr} {words}: {done:?}");
    }
    // a file of no end is no text of counts, nor sets
    for arguments in ["merge /dev/zero", "sample - --shots 9 --seed 1 --sets /dev/zero"] {
        let done = bounded(arguments, &far(0));
        assert!(done.status == 2 && done.stderr.starts_with("kundatrezo: /dev/zero: "), "{done:?}");
        assert!(!done.stderr.contains("memory"), "{done:?}");
    }
}

/// The least rooms to write in: a full device, and a pipe that nobody reads.
#[test]
fn output_that_cannot_be_written_fails() {
    let run = |script: &str| {
        finish(Command::new("sh").arg("-c").arg(script).env("PROGRAM", env!("CARGO_BIN_EXE_kundatrezo")), b"")
    };
    let session = concat!(env!("CARGO_MANIFEST_DIR"), "/../../examples/bell.job");
    for command in
        [format!("run {session}"), format!("settle {session}"), "bits 0.5".into(), "man".into(), "--help".into()]
    {
        let full = run(&format!("\"$PROGRAM\" {command} >/dev/full"));
        assert_eq!(full.status, 2, "{command}");
        assert!(full.stderr.starts_with("kundatrezo: standard output: "), "{full:?}");
        let unread = run(&format!("{{ \"$PROGRAM\" {command}; echo $? >&2; }} | true"));
        assert!(["0\n", "2\n"].contains(&unread.stderr.as_str()), "{unread:?}");
    }
    let full = run(&format!("\"$PROGRAM\" settle {session} --output /dev/full"));
    assert_eq!((full.status, full.stderr.starts_with("kundatrezo: /dev/full: ")), (2, true), "{full:?}");
    let dash = run(&format!("\"$PROGRAM\" settle {session} --output -"));
    assert_eq!((dash.status, dash.stderr.as_str()), (2, "kundatrezo: what is written goes to a file, and - is none\n"));
}

#[test]
fn help_names_every_command_and_option() {
    let help = |arguments: &str| {
        let done = call(arguments, "");
        assert_eq!((done.status, done.stderr.as_str()), (0, ""), "{arguments}");
        String::from_utf8(done.stdout).expect("text")
    };
    let whole = help("--help");
    let lists = "main seed state skip words second second-seed second-state second-words base noiseless";
    let drawn: &[&str] = &lists.split(' ').chain(["account", "caller"]).collect::<Vec<_>>();
    let commands = [
        ("check", vec![]),
        ("run", [drawn, &["x", "z", "deltas", "shots", "packed", "totals"]].concat()),
        ("settle", [drawn, &["output", "room"]].concat()),
        ("walk", vec!["shot", "set"]),
        ("annotate", vec!["p", "p-bits", "output", "room"]),
        ("locations", vec![]),
        ("correlation", vec![]),
        ("faults", vec!["group", "output"]),
        ("dem", vec!["detector", "observable", "output"]),
        ("share", vec!["main", "seed", "state", "skip", "words", "shares", "output"]),
        ("split", vec!["parts", "prefix"]),
        ("add", vec!["output"]),
        ("make", vec!["qubits", "outcomes", "shots", "lines", "seed", "output", "room"]),
        ("fill", vec!["state", "run-seed", "skip", "words", "output"]),
        ("sizes", vec!["output"]),
        ("bits", vec![]),
        ("decimal", vec![]),
        (
            "sample",
            "shots seed set sets format output threads part named noiseless noiseless-shots".split(' ').collect(),
        ),
        ("merge", vec!["output"]),
        ("help", vec![]),
        ("completions", vec![]),
        ("man", vec![]),
    ];
    let page = help("man");
    let complete = help("completions bash");
    assert_eq!(page.matches("\n.SS kundatrezo ").count(), commands.len());
    assert_eq!(complete.matches(") words='").count(), commands.len());
    for (command, options) in commands {
        assert!(whole.contains(&format!("    {command} ")), "{command}");
        let own = help(&format!("{command} --help"));
        assert!(own.starts_with(&format!("usage: kundatrezo {command}")), "{own}");
        assert!(page.contains(&format!("\n.SS kundatrezo {command}")), "{command}");
        assert_eq!(help(&format!("help {command}")), own);
        let rows = own.lines().filter(|line| line.starts_with("    --")).count();
        assert_eq!(rows, options.len(), "{own}");
        for option in options {
            assert!(own.contains(&format!("\n    --{option} ")), "{option}: {own}");
            assert!(page.contains(&format!("\n\\fB\\-\\-{}\\fR ", option.replace('-', "\\-"))), "{option}");
        }
    }
    assert_eq!((help("-h"), help("help")), (whole.clone(), whole));
    assert_eq!(help("run -h"), help("run --help"));
    assert!(help("--version").starts_with("kundatrezo "));
    assert_eq!(help("-V"), help("--version"));
}

/// Each command stands under one heading of the help, and under the same one of the manual page.
#[test]
fn help_and_manual_have_groups() {
    let groups = [
        ("Write and check jobs", "check settle annotate correlation sizes bits decimal"),
        ("Sample", "run sample merge"),
        ("Faults and decoders", "walk locations faults dem"),
        ("Shares of shots and words", "share split add"),
        ("Make jobs and words from seeds", "make fill"),
        ("This program", "help completions man"),
    ];
    let [help, page] = ["help", "man"].map(|command| String::from_utf8(call(command, "").stdout).expect("text"));
    for (title, commands) in groups {
        let (_, rows) = help.split_once(&format!("\n{title}:\n")).expect("a heading");
        let rows = rows.split("\n\n").next().unwrap_or_default();
        let names: Vec<&str> = rows.lines().filter_map(|row| row.split_whitespace().next()).collect();
        assert_eq!(names.join(" "), commands, "{title}");
        let (_, section) = page.split_once(&format!("\n.SH {}\n", title.to_uppercase())).expect("a section");
        let section = section.split("\n.SH ").next().unwrap_or_default();
        let usages = section.lines().filter_map(|line| line.strip_prefix(".SS kundatrezo "));
        let names: Vec<&str> = usages.filter_map(|usage| usage.split(' ').next()).collect();
        assert_eq!(names.join(" "), commands, "{title}");
    }
}
