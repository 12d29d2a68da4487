//! Samples: the same answer for every number of threads and parts, rows, refusals, and outputs that can't be written.

use crate::common::{Done, finish, folder, kundatrezo, names};
use kundatrezo::{Sampler, SavedCounts, Xorshift, bit};
use std::fs;
use std::path::Path;
use std::process::{Command, Stdio};

const SYNDROME: &str = concat!(env!("CARGO_MANIFEST_DIR"), "/../../examples/syndrome.job");
const BELL: &str = concat!(env!("CARGO_MANIFEST_DIR"), "/../../examples/bell.job");

/// Noise under conditions and in a correlation, and more outcomes than a word has bits for.
fn wide() -> String {
    let mut job = String::from("op=job qubits=2 outcomes=70 shots=10\nop=r id=0 angle=0\n");
    for id in 1..70 {
        let noise = match id % 3 {
            0 => "op=n p=3fb999999999999a corr=- cond=0 parity=1 d=2 q=0,1 size=15",
            1 => "op=n p=3fb999999999999a corr=8300 cond=- parity=0 d=1 x=1 z=- size=1",
            _ => "op=n p=3f847ae147ae147b corr=- cond=- parity=0 d=1 x=0 z=- size=1",
        };
        job += &format!("{noise}\nop=o x=- z={} id={id}\n", id % 2);
    }
    job
}

fn call(arguments: &str, stdin: impl AsRef<[u8]>) -> Done {
    kundatrezo(arguments.split_whitespace(), stdin.as_ref())
}

/// What a call prints that does its work, with notes at most.
fn printed(arguments: &str, stdin: impl AsRef<[u8]>) -> Vec<u8> {
    let done = call(arguments, stdin);
    assert!(
        done.status == 0 && done.stderr.lines().all(|line| line.starts_with("note: ")),
        "{arguments}: {}",
        done.stderr
    );
    done.stdout
}

fn text(bytes: Vec<u8>) -> String {
    String::from_utf8(bytes).expect("a text")
}

/// What says no: its status, and a part of what it says.
fn fails(arguments: &str, stdin: &str, status: i32, part: &str) {
    let done = call(arguments, stdin);
    assert!(done.status == status && done.stderr.contains(part) && done.stdout.is_empty(), "{arguments}: {done:?}");
}

#[test]
fn threads_and_parts_make_no_difference() {
    let folder = folder("sample_parts");
    let path = |name: String| folder.join(name).into_os_string().into_string().expect("a plain path");
    for (place, job) in [fs::read_to_string(SYNDROME).expect("the example"), wide()].into_iter().enumerate() {
        let options = "--shots 50001 --seed 7 --set 0,1,4 --set 2 --set=-";
        let whole = printed(&format!("sample - {options} --threads 1"), &job);
        let rows = printed(&format!("sample - {options} --threads 3 --format 01"), &job);
        assert_eq!(printed(&format!("sample - {options} --threads 2"), &job), whole);
        for parts in [1, 2, 7, 20] {
            let (mut files, mut joined) = (Vec::new(), Vec::new());
            for part in 1..=parts {
                let own = format!("{options} --part {part}/{parts} --threads {}", 1 + part % 3);
                let rows = path(format!("{place}.{parts}.{part}.01"));
                files.push(path(format!("{place}.{parts}.{part}")));
                let counts = printed(&format!("sample - {own} --format 01 --output {rows}"), &job);
                assert!(printed(&format!("sample - {own} --output {}", files[part - 1]), &job).is_empty());
                assert_eq!(fs::read(&files[part - 1]).ok(), Some(counts));
                joined.extend(fs::read(rows).expect("it is written"));
            }
            files.reverse();
            assert_eq!(printed(&format!("merge {}", files.join(" ")), ""), whole, "{parts}");
            assert_eq!(joined, rows, "{parts}");
        }
    }
    assert!(
        fs::read_dir(folder)
            .expect("it is there")
            .flatten()
            .all(|file| !text(file.file_name().into_encoded_bytes()).contains("partial"))
    );
}

/// The crate writes what the program prints, and reads it.
#[test]
fn the_crate_has_the_same_text() {
    let job = fs::read(SYNDROME).expect("the example");
    let sampler = Sampler::new(&job, 50_001, 7).expect("it is accepted");
    for part in [(1, 1), (2, 3)] {
        let saved = sampler.sample(&[vec![0, 1, 4], vec![]], part, 2).expect("it runs");
        let own = format!("--set 4,1,0 --set=- --part {}/{}", part.0, part.1);
        let text = text(printed(&format!("sample {SYNDROME} --shots 50001 --seed 7 {own}"), ""));
        assert_eq!((saved.text(), SavedCounts::read(&text)), (text, Ok(saved)));
    }
}

/// A sample of one block is a run with the words of that block.
#[test]
fn a_block_is_a_run() {
    let folder = folder("sample_block");
    let job = wide().replace("shots=10\n", "shots=300\n");
    let list = |list: u64| {
        let bytes: Vec<u8> = Xorshift::of_block(9, 0, list).take(60_000).flat_map(u64::to_le_bytes).collect();
        let path = folder.join(list.to_string());
        fs::write(&path, bytes).expect("it can be written");
        path.display().to_string()
    };
    let [shots, totals] = ["shots", "totals"].map(|name| folder.join(name).display().to_string());
    let options = format!("--main {} --second {} --shots {shots} --totals {totals}", list(0), list(1));
    printed(&format!("run - {options}"), &job);
    let rows = printed("sample - --shots 300 --seed 9 --format 01", &job);
    assert_eq!(Some(rows), fs::read(shots).ok());
    let counts = text(printed("sample - --shots 300 --seed 9", &job));
    let total = |line: &str| line.split(" rate=").next().expect("a first part").to_owned();
    let counted: Vec<String> = counts.lines().skip(2).map(total).collect();
    let ran: Vec<String> = fs::read_to_string(totals).expect("it is written").lines().map(total).collect();
    assert_eq!(counted, ran);
}

#[test]
fn rows_are_what_is_counted() {
    let sets = "--set 0,1,4 --set 2 --set 1,2,3,5,6";
    let lines = |options: &str| text(printed(&format!("sample {SYNDROME} --shots 9000 --seed 3 {options}"), ""));
    let counts = lines(sets);
    let totals = |rows: &str| -> Vec<usize> {
        let digits = rows.lines().next().map_or(0, str::len);
        (0..digits).map(|place| rows.lines().filter(|row| row.as_bytes()[place] == b'1').count()).collect()
    };
    let all = [totals(&lines("--format 01")), totals(&lines(&format!("{sets} --format 01")))].concat();
    let counted: Vec<usize> = counts
        .lines()
        .skip(2)
        .map(|line| {
            line.split(" total=")
                .nth(1)
                .and_then(|rest| rest.split(' ').next())
                .expect("a total")
                .parse()
                .expect("a number")
        })
        .collect();
    assert_eq!(counted, all);
    // packed bytes are the digits
    let packed = printed("sample - --shots 5000 --seed 3 --format b8", wide());
    let digits = text(printed("sample - --shots 5000 --seed 3 --format 01", wide()));
    assert_eq!(packed.len(), 5000 * 9);
    for (row, line) in packed.chunks(9).zip(digits.lines()) {
        let mut bytes = row.to_vec();
        bytes.resize(16, 0);
        let words: Vec<u64> = bytes.as_chunks().0.iter().map(|word| u64::from_le_bytes(*word)).collect();
        let unpacked: String = (0..70).map(|id| if bit(&words, id) { '1' } else { '0' }).collect();
        assert_eq!(unpacked, line);
    }
    // a set may come from a file
    let folder = folder("sample_sets");
    fs::write(folder.join("sets"), "2\n1,2,3,5,6\n").expect("it can be written");
    assert_eq!(lines(&format!("--set 0,1,4 --sets {}", folder.join("sets").display())), counts);
}

#[test]
fn noiseless_bits_come_again_or_are_given() {
    let folder = folder("sample_noiseless");
    let path = |name: &str| folder.join(name).display().to_string();
    // outcome 0 is 1 in shots 1, 2, 5 and 9 of ten
    let of_ten = 0b10_0010_0110_u64;
    let rows: Vec<u8> = (0..70).flat_map(|id| if id == 0 { of_ten } else { 0 }.to_le_bytes()).collect();
    fs::write(path("rows"), rows).expect("it can be written");
    let by_shot: Vec<u8> =
        (0..9000).flat_map(|shot| [vec![u8::from(of_ten >> (shot % 10) & 1 == 1)], vec![0; 8]].concat()).collect();
    fs::write(path("shots"), by_shot).expect("it can be written");
    let sample = |options: &str| printed(&format!("sample - --shots 9000 --seed 3 --format 01 {options}"), wide());
    let again = sample(&format!("--noiseless {}", path("rows")));
    assert_eq!(sample(&format!("--noiseless-shots {}", path("shots"))), again);
    assert_ne!(sample(""), again);
    fails(
        &format!("sample - --shots 9001 --seed 3 --noiseless-shots {}", path("shots")),
        &wide(),
        2,
        "81009 are needed",
    );
    fs::write(path("shots"), [0; 9 * 9000 + 1]).expect("it can be written");
    let odd = format!("sample - --shots 9000 --seed 3 --noiseless-shots {}", path("shots"));
    fails(&odd, &wide(), 2, "81001 bytes, and 81000 are needed, 9 for each shot");
}

/// Noiseless rows for another number of shots are told by their size: outcome 0 is 1 in no shot, and outcome 1 in all of 4,096.
#[test]
fn noiseless_bits_of_another_size_are_refused() {
    let folder = folder("sample_noiseless_size");
    let job = "op=job qubits=1 outcomes=2 shots=10\nop=o x=- z=0 id=0\n\
               op=n p=3ff0000000000000 corr=- cond=0 parity=0 d=1 x=0 z=- size=1\nop=o x=- z=0 id=1\n";
    let sample = |bytes: usize| {
        let rows = folder.join("rows");
        fs::write(&rows, vec![0; bytes]).expect("it can be written");
        format!("sample - --shots 9000 --seed 3 --noiseless {}", rows.display())
    };
    assert!(text(printed(&sample(16), job)).contains("id=1 total=9000 "));
    for (bytes, message) in [
        (0, "rows: 0 words, but outcomes=2 and shots=10 need exactly 2\n"),
        (8, "rows: 1 words, but outcomes=2 and shots=10 need exactly 2\n"),
        (24, "rows: 3 words or more, but outcomes=2 and shots=10 need exactly 2\n"),
        (2 * 64 * 8, "rows: 3 words or more, but outcomes=2 and shots=10 need exactly 2\n"),
        (17, "rows: its bytes are no whole number of 64-bit words\n"),
    ] {
        fails(&sample(bytes), job, 2, message);
    }
    let endless = "sample - --shots 9000 --seed 3 --noiseless /dev/zero";
    fails(endless, job, 2, "/dev/zero: 3 words or more, but outcomes=2 and shots=10 need exactly 2");
}

/// Noise with a condition comes with a note where its noiseless bits are not given, and where those of a random outcome are no more than rows.
#[test]
fn conditions_come_with_notes() {
    let folder = folder("sample_notes");
    let path = |name: &str| folder.join(name).display().to_string();
    fs::write(path("rows"), [0; 70 * 8]).expect("it can be written");
    fs::write(path("shots"), [0; 9 * 100]).expect("it can be written");
    let notes = |options: &str, job: &str| {
        let done = call(&format!("sample - --shots 100 --seed 3 {options}"), job);
        assert_eq!(done.status, 0, "{done:?}");
        done.stderr
    };
    let no_bits = "note: line 7 has noise with a condition, and without --noiseless or --noiseless-shots all noiseless bits are 0\n";
    let random = |bit: &str| {
        let what = "the condition of line 7 looks at outcome 0, which op=r records at random";
        format!("note: {what}, and its noiseless bit {bit}: --noiseless-shots gives it for each shot\n")
    };
    assert_eq!(notes("", &wide()), format!("{no_bits}{}", random("is 0 in every shot")));
    let rows = format!("--noiseless {}", path("rows"));
    assert_eq!(notes(&rows, &wide()), random("comes again every 10 shots"));
    let measured = wide().replace("op=r id=0 angle=0", "op=o x=- z=0 id=0");
    assert_eq!([notes("", &measured), notes(&rows, &measured)], [no_bits, ""]);
    assert_eq!(notes(&format!("--noiseless-shots {}", path("shots")), &wide()), "");
    assert_eq!(notes("", &wide().replace("cond=0 parity=1", "cond=- parity=0")), "");
}

/// Counts are merged if they are whole and belong together.
#[test]
fn what_merge_refuses() {
    let folder = folder("merge");
    let path = |name: &str| folder.join(name).display().to_string();
    let sample = |seed: u64, options: &str| {
        text(printed(&format!("sample {SYNDROME} --shots 9000 --seed {seed} --set 4,5,6 --set 0 {options}"), ""))
    };
    let (one, two) = (sample(1, ""), sample(2, ""));
    fs::write(path("one"), &one).expect("it can be written");
    let merge = |other: &[u8], message: &str| {
        fs::write(path("other"), other).expect("it can be written");
        fails(&format!("merge {} {}", path("one"), path("other")), "", 2, &format!("{}: {message}", path("other")));
    };
    let lines: Vec<&str> = two.split_inclusive('\n').collect();
    for count in 2..lines.len() {
        let message =
            format!("the text is cut off: its first line says 9 lines of counts, and there are {}\n", count - 2);
        merge(lines[..count].concat().as_bytes(), &message);
    }
    merge(&two.as_bytes()[..two.len() - 4], "the text is cut off: ");
    let no_counts = "these are no counts as 'kundatrezo sample' writes them\n";
    for other in [lines[0].as_bytes(), b"", b"\xff\0\xfe", b"ok=1\n", &fs::read(SYNDROME).expect("the example")] {
        merge(other, no_counts);
    }
    fails("merge /dev/zero", "", 2, no_counts);
    merge(
        two.replace("draws=xorshift", "draws=skips").as_bytes(),
        "sampled by the rule of draws 'skips', others by 'xorshift': ",
    );
    merge(two.replacen("total=", "total=1", 1).as_bytes(), "line 3 is not as 'kundatrezo sample' writes it\n");
    merge(sample(1, "").as_bytes(), "part 1/1 of seed 1 is counted twice\n");
    merge(sample(2, "--set 1").as_bytes(), "these are counts of other sets\n");
    merge(sample(2, "--named block").as_bytes(), "sampled with other options: named= or noiseless= differs\n");
    // a text of an earlier version is read with the two lines that are named
    let old = two.replace(" recorded=7 sets=2 counted=0", "").replace(" draws=xorshift", "");
    let earlier = "counts of an earlier version, which name neither their rule of draws nor the number of their lines: they may be cut off";
    let remedy = format!("If they are whole, replace the first two lines by\n{}", lines[..2].concat());
    merge(old.as_bytes(), &format!("{earlier}. {remedy}"));
    assert!(text(printed(&format!("merge {} -", path("one")), &two)).contains(" seed=1,2 part=1/1 of=18000\n"));
}

/// Parts of two samples, in any order, are the two samples.
#[test]
fn parts_of_several_seeds_are_merged() {
    let folder = folder("merge_seeds");
    let path = |name: String| folder.join(name).display().to_string();
    let mut files = Vec::new();
    for (seed, part) in [(1, 2), (2, 1), (1, 3), (2, 2), (1, 1), (2, 3)] {
        files.push(path(format!("{seed}.{part}")));
        let own = format!("--seed {seed} --part {part}/3 --output {}", files[files.len() - 1]);
        printed(&format!("sample {SYNDROME} --shots 20000 {own}"), "");
    }
    let whole = [1, 2].map(|seed| {
        let file = path(seed.to_string());
        printed(&format!("sample {SYNDROME} --shots 20000 --seed {seed} --output {file}"), "");
        file
    });
    let merged = printed(&format!("merge {}", files.join(" ")), "");
    assert_eq!(text(merged), text(printed(&format!("merge {}", whole.join(" ")), "")));
    fails(&format!("merge {}", files[1..].join(" ")), "", 2, "of the 3 parts of seed 1 these are missing: 2\n");
    fails(&format!("merge {} {}", files.join(" "), files[0]), "", 2, "both have seed 1");
}

#[test]
fn named_shots() {
    fails(&format!("sample {BELL} --shots 9000 --seed 1"), "", 2, "line 4 stands in a shot that it names");
    let total = |options: &str| {
        let counts = text(printed(&format!("sample {BELL} --shots 9000 --seed 1 {options}"), ""));
        counts.lines().filter_map(|line| line.split(' ').nth(1)).skip(2).map(str::to_owned).collect::<Vec<String>>()
    };
    assert_eq!(total("--named whole"), ["total=1", "total=1"]);
    assert_eq!(total("--named block"), ["total=3", "total=3"]);
    let refused =
        "refused: 10 (a shot not below the header's shots) at line 7: op=t shot=2 id=1\nhint: the whole has 2 shots\n";
    fails(&format!("sample {BELL} --shots 2 --seed 1 --named whole"), "", 1, refused);
}

#[test]
fn refusals_and_wrong_arguments() {
    let sample = |options: &str| format!("sample {SYNDROME} --shots 10 --seed 1 {options}");
    fails("sample - --shots 1 --seed 1", "op=job qubits=0 outcomes=0 shots=1\n", 1, "refused: 3 ");
    // the order of a set plays no part, and its refusal says nothing of a walk
    assert_eq!(printed(&sample("--set 3,1"), ""), printed(&sample("--set 1,3"), ""));
    let list =
        "refused: 17 (a set or group cut short, not strictly rising, or with an outcome that is not recorded)\nhint: ";
    for set in ["3,7", "3,1,3"] {
        let message = format!("{list}the set {set}: it names recorded outcomes, 0 to 6, each once\n");
        fails(&sample(&format!("--set {set}")), "", 1, &message);
    }
    for (shots, digits) in
        [("1e6", "1000000"), ("1_000_000", "1000000"), ("1,000", "1000"), ("2.5e3", "2500"), ("10.0", "10")]
    {
        let message = format!("the value of --shots is to be a number below 2^64, not '{shots}': write {digits}\n");
        fails(&format!("sample {SYNDROME} --shots {shots} --seed 1"), "", 2, &message);
    }
    for shots in ["1.5", "-3", "1e99", "a", "", "nan"] {
        let message = format!("the value of --shots is to be a number below 2^64, not '{shots}'\n");
        fails(&format!("sample {SYNDROME} --shots={shots} --seed 1"), "", 2, &message);
    }
    fails(&sample("--set a"), "", 2, "a set is to be numbers");
    let sets = folder("sample_refused_sets").join("sets").into_os_string().into_string().expect("a plain path");
    for (text, status, message) in [
        ("0\n\n", 2, ", line 2: a set is to be numbers with commas between, or -, not ''\n"),
        ("-\n0\n3,7\n", 1, ", line 3: the set 3,7: it names recorded outcomes, 0 to 6, each once\n"),
    ] {
        fs::write(&sets, text).expect("it can be written");
        fails(&sample(&format!("--sets {sets}")), "", status, &format!("{sets}{message}"));
    }
    for part in ["0/2", "3/2", "1", "1/0", "-1/2"] {
        fails(&sample(&format!("--part {part}")), "", 2, "I/K, with I from 1 to K");
    }
    fails(&sample("--format 02"), "", 2, "table, counts, 01 or b8");
    fails(&sample("--threads 0"), "", 2, "a number from 1");
    fails(&sample("--named here"), "", 2, "'whole' or 'block'");
    fails(&sample("--seed 2"), "", 2, "the option --seed is given twice");
    fails(&format!("sample {SYNDROME} --shots 10"), "", 2, "kundatrezo: --seed is wanted\n");
    fails(&format!("sample {SYNDROME} --shots 0 --seed 1"), "", 2, "at least 1");
    let far = wide().replace("corr=8300", "corr=18446744073709551000");
    let hint = "op=n p=3fb999999999999a corr=18446744073709551000 cond=- parity=0 d=1 x=1 z=- size=1\nhint: place corr";
    fails("sample - --shots 10 --seed 1", &far, 1, hint);
    fails("merge -", "ok=1\n", 2, "these are no counts as");
    // the longest job, whose header has no room for more digits
    let longest =
        format!("op=job qubits=1 outcomes=0 shots=1\n{}{}", "op=u g=4 q=0\n".repeat(8), "op=z q=0\n".repeat(116_493));
    assert_eq!(longest.len(), kundatrezo::MAX_BYTES);
    assert!(call("sample - --shots 9 --seed 1", &longest).status == 0);
    fails(
        "sample - --shots 4096 --seed 1",
        &longest,
        1,
        "hint: with 4096 shots in its header the job has more than 1048576 bytes",
    );
}

/// What can't be written is said, and leaves no file.
#[test]
fn full_disks_and_closed_pipes() {
    let folder = folder("sample_full");
    let program = env!("CARGO_BIN_EXE_kundatrezo");
    let shell = |script: &str| {
        let mut shell = Command::new("sh");
        finish(shell.arg("-c").arg(script).arg(program).arg(SYNDROME).current_dir(&folder), b"")
    };
    for format in ["table", "counts", "01", "b8"] {
        let sample = format!("\"$0\" sample \"$1\" --shots 100000 --seed 1 --format {format}");
        for target in [" >/dev/full", " --output /dev/full"] {
            let done = shell(&format!("{sample}{target}"));
            assert!(done.status == 2 && done.stderr.contains("No space left"), "{format} {target}: {done:?}");
        }
        // a file may have no bytes
        let full = shell(&format!("trap '' XFSZ; ulimit -f 0; exec {sample} --output rows"));
        assert!(full.status == 2 && full.stderr.starts_with("kundatrezo: rows: "), "{full:?}");
        assert_eq!(names(&folder), [""; 0]);
    }
    // a link stays one
    fs::write(folder.join("old"), "old").expect("it can be written");
    std::os::unix::fs::symlink("old", folder.join("link")).expect("a link can be made");
    assert_eq!(shell("\"$0\" sample \"$1\" --shots 9 --seed 1 --output link").status, 0);
    assert!(fs::read_to_string(folder.join("old")).is_ok_and(|counts| counts.starts_with("ok=1 ")));
    let mut child = Command::new(program)
        .args(["sample", SYNDROME, "--shots", "100000", "--seed", "1", "--format", "01"])
        .stdout(Stdio::piped())
        .stderr(Stdio::piped())
        .spawn()
        .expect("it starts");
    drop(child.stdout.take());
    let done = child.wait_with_output().expect("it ends");
    assert_eq!(done.status.code(), Some(2));
    assert!(text(done.stderr).contains("standard output was closed before shot"));
}

/// Many shots take no more memory than few: 200,000 rows of 1,025 bytes go through 150 MB, of which threads reserve the larger part and use little.
#[test]
fn memory_is_bounded() {
    let job = "op=job qubits=1 outcomes=1024 shots=1\nop=n p=3fe0000000000000 corr=- cond=- parity=0 d=1 x=0 z=- size=1\nop=o x=- z=0 id=0\n";
    let script = "ulimit -v 150000; \"$0\" sample - --shots 200000 --seed 1 --threads 2 --format 01 | wc -c";
    let done = finish(Command::new("sh").arg("-c").arg(script).arg(env!("CARGO_BIN_EXE_kundatrezo")), job.as_bytes());
    assert_eq!((text(done.stdout).trim(), done.stderr.as_str()), ("205000000", ""));
}

/// What a sample writes to a terminal, which `script` makes where it is at hand.
fn on_a_terminal(options: &str) -> Option<String> {
    if !Path::new("/usr/bin/script").exists() {
        return None;
    }
    let sample = format!("{} sample {SYNDROME} --shots 100000 --seed 1 {options}", env!("CARGO_BIN_EXE_kundatrezo"));
    let done = finish(Command::new("/usr/bin/script").args(["-qec", &sample, "/dev/null"]), b"");
    assert_eq!(done.status, 0);
    Some(text(done.stdout).replace("\r\n", "\n"))
}

/// On a terminal a line says how far the sample is, and counts are a table, unless they are asked for; a file has counts.
#[test]
fn on_a_terminal_there_is_progress_and_a_table() {
    let printed = |options: &str| text(printed(&format!("sample {SYNDROME} --shots 100000 --seed 1 {options}"), ""));
    let folder = folder("sample_terminal");
    let path = |name: &str| folder.join(name).display().to_string();
    let Some(message) = on_a_terminal("--set 4,5,6") else {
        return;
    };
    assert!(message.contains(" of 100000 shots, ") && message.contains(" left"), "{message}");
    let table = printed("--set 4,5,6 --format table");
    assert!(message.ends_with(&table), "{message}");
    let names: Vec<&str> = table.lines().skip(1).filter_map(|line| line.split("  ").next()).collect();
    assert_eq!(names[..3], ["outcome or set", "set 4,5,6", "outcome 0"]);
    let counts = printed("--set 4,5,6");
    assert!(counts.starts_with("ok=1 ") && printed("--set 4,5,6 --format counts") == counts);
    assert!(on_a_terminal("--set 4,5,6 --format counts").is_some_and(|message| message.ends_with(&counts)));
    assert!(on_a_terminal(&format!("--set 4,5,6 --output {}", path("counts"))).is_some());
    assert_eq!(fs::read_to_string(path("counts")).ok(), Some(counts.clone()));
    // counts beside rows in a file
    let rows = format!("--set 4,5,6 --format 01 --output {}", path("rows"));
    assert!(on_a_terminal(&rows).is_some_and(|message| message.ends_with(&table)));
    assert_eq!(printed(&rows), counts);
}
