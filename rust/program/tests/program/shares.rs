//! Callers with shares of one main list, by an account in a file.

use crate::common::{Done, finish, folder, kundatrezo, names};
use kundatrezo::Xorshift;
use std::collections::BTreeSet;
use std::fs::{self, File, Permissions};
use std::io::Write;
use std::os::unix::fs::PermissionsExt;
use std::path::{Path, PathBuf};
use std::process::{Child, Command, Stdio};
use std::time::Duration;

/// Each shot reads a word of the main list, and one of the second list from place 3 on.
const JOB: &str = "op=job qubits=2 outcomes=1 shots=10
op=n p=3fe0000000000000 corr=- cond=- parity=0 d=1 x=0 z=- size=1
op=n p=3fe0000000000000 corr=3 cond=- parity=0 d=1 x=1 z=- size=1
op=o x=- z=0,1 id=0
";

/// The program on names of files in a folder, that begin with a `/`.
fn call(folder: &Path, arguments: &str) -> Done {
    let folder = folder.to_str().expect("a path in plain text");
    let named = |argument: &str| match argument.strip_prefix('/') {
        Some(name) => format!("{folder}/{name}"),
        None => argument.to_owned(),
    };
    kundatrezo(arguments.split(' ').map(named), JOB.as_bytes())
}

fn printed(done: Done) -> String {
    assert_eq!((done.status, done.stderr.as_str()), (0, ""), "{done:?}");
    String::from_utf8(done.stdout).expect("text")
}

fn taken(folder: &Path) -> Vec<u64> {
    let account = fs::read_to_string(folder.join("account")).expect("an account");
    account
        .lines()
        .filter(|line| line.contains("taken="))
        .map(|line| line.rsplit_once("taken=").expect("a mark").1.parse().expect("a number"))
        .collect()
}

#[test]
fn a_caller_draws_what_a_plain_run_would() {
    let folder = folder("shares");
    printed(call(&folder, "share --seed 5 --words 60 --shares 15,8 --output /account"));
    assert_eq!(taken(&folder), [0, 0, 0]);
    let words = |places: std::ops::Range<usize>| -> Vec<u8> {
        let all: Vec<u64> = Xorshift::new(5).take(60).collect();
        all[places].iter().flat_map(|word| word.to_le_bytes()).collect()
    };
    // the own words, then common ones; the second list is made as far as it is needed, and what a first try took is no loss
    let cases = [
        ("0", words(0..10), "10 common=0 own-left=5 common-left=37", [10, 0, 0]),
        ("1", [words(15..23), words(23..25)].concat(), "8 common=2 own-left=0 common-left=35", [10, 8, 2]),
        ("0", [words(10..15), words(25..30)].concat(), "5 common=5 own-left=0 common-left=30", [15, 8, 7]),
    ];
    for (caller, words, last, marks) in cases {
        fs::write(folder.join("words"), words).expect("it can be written");
        let shared = format!("run - --seed 5 --second-seed 6 --account /account --caller {caller}");
        let shared = printed(call(&folder, &shared));
        let plain = printed(call(&folder, "run - --main /words --second-seed 6"));
        let session = plain.split("words=").next().expect("a session");
        assert_eq!(shared, format!("{session}own={last} second=13\n"));
        assert_eq!(taken(&folder), marks);
    }
}

#[test]
fn accounts_are_kept() {
    let folder = folder("accounts");
    printed(call(&folder, "share --seed 5 --words 25 --shares 10,0 --output /account"));
    let settled = printed(call(&folder, "settle - --seed 5 --second-seed 6 --account /account --caller 1"));
    assert_eq!(taken(&folder), [0, 0, 10]);
    assert_eq!(settled, printed(call(&folder, "settle - --seed 5 --skip 10 --second-seed 6")));
    // what is refused by another number than 14 takes nothing
    fs::write(folder.join("nothing"), b"").expect("it can be written");
    let account = fs::read(folder.join("account")).expect("an account");
    let refused = [
        ("settle - --seed 5 --second-seed 6 --account /account --caller 0 --room 9", "refused: 15 "),
        ("run - --seed 5 --second-seed 6 --account /account --caller 2", "refused: 26 "),
        ("run - --seed 5 --noiseless /nothing --account /account --caller 0", "refused: 13 "),
        ("run - --seed 6 --second-seed 5 --account /account --caller 0", "kundatrezo: "),
        ("run - --seed 5 --words 25 --account /account --caller 0", "kundatrezo: the account says how many"),
        ("run - --account /account --caller 0", "kundatrezo: "),
        ("run - --main /account --account /account --caller 0", "kundatrezo: "),
    ];
    for (arguments, message) in refused {
        let done = call(&folder, arguments);
        assert!(done.status != 0 && done.stderr.starts_with(message), "{arguments}: {done:?}");
        assert_eq!(fs::read(folder.join("account")).ok().as_ref(), Some(&account), "{arguments}");
    }
    // 14, of either list
    let done = call(&folder, "run - --seed 5 --account /account --caller 0");
    assert!(done.stderr.contains("at line 3") && done.stderr.contains("there is no second list"), "{done:?}");
    assert_eq!(taken(&folder), [10, 0, 10]);
    let done = call(&folder, "run - --seed 5 --second-seed 6 --account /account --caller 0");
    assert!(done.stderr.contains("at line 2"), "{done:?}");
    assert!(done.stderr.ends_with("\nhint: the stretch of caller 0 and the common part are used up\n"), "{done:?}");
    assert_eq!(taken(&folder), [10, 0, 15]);
}

/// A file that is locked for as long as this lives.
fn locked(path: PathBuf) -> File {
    let file = File::options().read(true).write(true).open(path).expect("a lock file");
    file.try_lock().expect("nobody has it");
    file
}

/// The lock is the system's: a file of that name is none, and one that another process holds is.
#[test]
fn accounts_are_locked() {
    let folder = folder("locked");
    printed(call(&folder, "share --seed 5 --words 60 --shares 10,0 --output /account"));
    std::os::unix::fs::symlink("account", folder.join("link")).expect("it can be linked");
    let run = "run - --seed 5 --second-seed 6 --account /link --caller 0";
    let share = "share --seed 5 --words 60 --shares 10,0 --output /account";
    let lock = locked(folder.join("account.lock"));
    for arguments in [run, share] {
        let done = call(&folder, arguments);
        assert!(done.status == 2 && done.stderr.contains("another run draws by this account"), "{done:?}");
    }
    assert_eq!(taken(&folder), [0, 0, 0]);
    // not by closing it: a child of another test may have the file for a moment, too
    lock.unlock().expect("it is locked");
    printed(call(&folder, run));
    assert_eq!(
        (taken(&folder), names(&folder)),
        (vec![10, 0, 0], ["account", "account.lock", "link"].map(String::from).to_vec())
    );
    // a link in the lock's place would be locked elsewhere
    fs::remove_file(folder.join("account.lock")).expect("it stays");
    std::os::unix::fs::symlink("elsewhere", folder.join("account.lock")).expect("it can be linked");
    fs::write(folder.join("elsewhere"), "").expect("it can be written");
    let done = call(&folder, run);
    assert!(done.status == 2 && done.stderr.contains("account.lock: this file can't be locked"), "{done:?}");
    assert_eq!(taken(&folder), [10, 0, 0]);
}

/// A process that waits for the words of its list.
struct Waiting {
    child: Child,
}

impl Waiting {
    fn start(folder: &Path, arguments: &str) -> Self {
        fs::write(folder.join("job"), JOB).expect("it can be written");
        let mut command = Command::new(env!("CARGO_BIN_EXE_kundatrezo"));
        let piped = command.stdin(Stdio::piped()).stdout(Stdio::piped()).stderr(Stdio::piped());
        let child = piped.args(arguments.split(' ')).current_dir(folder).spawn().expect("it starts");
        Self { child }
    }

    /// Until it holds the lock of the account, by the system's list: to try would take the lock away.
    fn until_locked(self) -> Self {
        let process = self.child.id().to_string();
        let is_own = |line: &str| line.contains(" FLOCK ") && line.split_whitespace().any(|word| word == process);
        let is_locked = || fs::read_to_string("/proc/locks").expect("a list").lines().any(is_own);
        let mut tries = 0..2000;
        while !is_locked() {
            tries.next().expect("it is locked within ten seconds");
            std::thread::sleep(Duration::from_millis(5));
        }
        self
    }

    /// What it does with these words.
    fn fed(mut self, words: &[u8]) -> (Option<i32>, String) {
        self.child.stdin.take().expect("it is piped").write_all(words).expect("it reads");
        let output = self.child.wait_with_output().expect("it ends");
        (output.status.code(), String::from_utf8(output.stderr).expect("text"))
    }
}

/// Words for a list of 60.
fn sixty() -> Vec<u8> {
    Xorshift::new(5).take(60).flat_map(u64::to_le_bytes).collect()
}

/// A run that is killed leaves a lock that nobody holds; one whose lock file is removed under it writes nothing.
#[test]
fn runs_that_are_killed_or_lose_their_lock() {
    let folder = folder("killed");
    printed(call(&folder, "share --seed 5 --words 60 --shares 10,0 --output /account"));
    let run = "run - --seed 5 --second-seed 6 --account /account --caller 0";
    let waits = "run job --main - --second-seed 6 --account account --caller 0 --deltas rows";
    let mut killed = Waiting::start(&folder, waits).until_locked();
    assert!(call(&folder, run).stderr.contains("another run draws by this account"));
    killed.child.kill().expect("it runs");
    killed.child.wait().expect("it ends");
    printed(call(&folder, run));
    assert_eq!(taken(&folder), [10, 0, 0]);

    let robbed = Waiting::start(&folder, waits).until_locked();
    fs::remove_file(folder.join("account.lock")).expect("it is there");
    printed(call(&folder, run));
    let (status, message) = robbed.fed(&sixty());
    assert!(
        status == Some(2) && message.contains("the account or its lock was changed while the job ran"),
        "{message}"
    );
    assert_eq!((taken(&folder), folder.join("rows").exists()), (vec![10, 0, 10], false));

    // a restored or edited account, too
    let old = fs::read(folder.join("account")).expect("an account");
    let edited = Waiting::start(&folder, waits).until_locked();
    fs::write(folder.join("account"), "list=60").expect("it can be written");
    assert!(edited.fed(&sixty()).1.contains("was changed while the job ran"));
    fs::write(folder.join("account"), old).expect("it can be written");
    // and one that nobody touches draws
    assert_eq!(Waiting::start(&folder, waits).until_locked().fed(&sixty()), (Some(0), String::new()));
    assert_eq!(taken(&folder), [10, 0, 20]);
}

/// Runs at the same time: those that find the account locked try again, and no two take the same words.
#[test]
fn many_runs_at_once() {
    const RUNS: u64 = 24;
    let folder = folder("at_once");
    printed(call(&folder, "share --seed 5 --words 300 --shares 0 --output /account"));
    let run = || loop {
        let done = call(&folder, "run - --seed 5 --second-seed 6 --account /account --caller 0");
        if done.status == 0 {
            let message = String::from_utf8(done.stdout).expect("text");
            let left =
                message.split_once("common-left=").and_then(|(_, rest)| rest.split_once(' ')).expect("what is left");
            return left.0.parse::<u64>().expect("a number");
        }
        assert!(done.stderr.contains("another run draws by this account"), "{done:?}");
    };
    let left: BTreeSet<u64> = std::thread::scope(|scope| {
        let threads: Vec<_> = (0..RUNS).map(|_| scope.spawn(run)).collect();
        threads.into_iter().map(|thread| thread.join().expect("it runs")).collect()
    });
    assert_eq!(left, (1..=RUNS).map(|run| 300 - 10 * run).collect());
    assert_eq!(taken(&folder), [0, 10 * RUNS]);
}

/// `share` reads its list before it writes: an account that is made and drawn from meanwhile stays.
#[test]
fn an_account_that_is_drawn_from_meanwhile_stays() {
    let folder = folder("meanwhile");
    fs::write(folder.join("words"), sixty()).expect("it can be written");
    let late = Waiting::start(&folder, "share --main - --shares 10,0 --output account");
    printed(call(&folder, "share --main /words --shares 10,0 --output /account"));
    printed(call(&folder, "run - --main /words --second-seed 6 --account /account --caller 0"));
    let (status, message) = late.fed(&sixty());
    assert!(status == Some(2) && message.contains("account: words of this account are taken"), "{message}");
    assert_eq!(taken(&folder), [10, 0, 0]);
}

/// What would hand words out again: a second name of the account, and an account that was edited.
#[test]
fn accounts_of_two_names_and_edited_ones() {
    let folder = folder("two_names");
    let share = "share --seed 5 --words 60 --shares 10,0 --output /account";
    let run = "run - --seed 5 --second-seed 6 --account /account --caller 0 --deltas /rows";
    printed(call(&folder, share));
    fs::hard_link(folder.join("account"), folder.join("other")).expect("it can be linked");
    for arguments in [run, share, &run.replace("/account", "/other")] {
        let done = call(&folder, arguments);
        assert!(done.status == 2 && done.stderr.contains("the account has more than one name"), "{done:?}");
    }
    fs::remove_file(folder.join("other")).expect("it is there");
    printed(call(&folder, run));
    fs::remove_file(folder.join("rows")).expect("it is there");
    let account = fs::read_to_string(folder.join("account")).expect("an account");
    for edited in [account.replace("taken=10", "taken=0"), account.replace('\n', "\r\n"), account[..50].to_owned()] {
        fs::write(folder.join("account"), &edited).expect("it can be written");
        let done = call(&folder, run);
        let message = ["the account was edited or is not whole: its seal does not fit", "the text is no account"];
        assert!(done.status == 2 && message.iter().any(|message| done.stderr.contains(message)), "{done:?}");
        let done = call(&folder, share);
        assert!(done.status == 2 && done.stderr.contains("are taken, or it was edited"), "{done:?}");
        assert_eq!(fs::read_to_string(folder.join("account")).ok(), Some(edited));
    }
    assert!(!folder.join("rows").exists());
}

/// The account is written before any output, and read no further than an account is long.
#[test]
fn accounts_come_first() {
    let folder = folder("first");
    printed(call(&folder, "share --seed 5 --words 60 --shares 10,0 --output /account"));
    fs::set_permissions(folder.join("account"), Permissions::from_mode(0o600)).expect("a mode");
    fs::remove_file(folder.join("account.lock")).expect("it stays");
    let run = "run - --seed 5 --second-seed 6 --account account --caller 0 --deltas";
    // a file that can't be written is found before a word is taken, a device that is full after
    for (output, marks) in [("/nowhere/rows", [0, 0, 0]), (".", [0, 0, 0]), ("/dev/full", [10, 0, 0])] {
        let done = shell(&folder, &format!("\"$0\" {run} {output}"));
        assert_eq!((done.status, taken(&folder)), (2, marks.to_vec()), "{done:?}");
    }
    let mode = |name: &str| fs::metadata(folder.join(name)).expect("a file").permissions().mode() & 0o777;
    assert_eq!((mode("account"), mode("account.lock")), (0o600, 0o600));
    // what is no account by its size or kind
    std::os::unix::fs::symlink("/dev/zero", folder.join("zero")).expect("it can be linked");
    let large = File::create(folder.join("large")).expect("it can be made");
    (&large).write_all(b"list=").and_then(|()| large.set_len(1 << 32)).expect("it can be long");
    for (name, message) in [("zero", "an account is a plain file"), ("large", "the text has more than 1024 bytes")] {
        let done = call(&folder, &format!("run - --seed 5 --account /{name} --caller 0"));
        assert!(done.status == 2 && done.stderr.contains(message), "{done:?}");
    }
    assert!(!Path::new("/dev/zero.lock").exists());
    let done = call(&folder, "share --seed 5 --words 60 --shares 10,0 --output /large");
    assert!(done.status == 2 && done.stderr.contains("the text has more than 1024 bytes"), "{done:?}");
}

/// A script in a folder, with the program as `$0` and the job on standard input.
fn shell(folder: &Path, script: &str) -> Done {
    let mut shell = Command::new("sh");
    let program = env!("CARGO_BIN_EXE_kundatrezo");
    finish(shell.arg("-c").arg(script).arg(program).current_dir(folder), JOB.as_bytes())
}

#[test]
fn a_file_is_shared_to_its_end() {
    let folder = folder("shared_file");
    let words: Vec<u8> = (0..25_u64).flat_map(|word| (word << 59).to_le_bytes()).collect();
    fs::write(folder.join("words"), &words).expect("it can be written");
    let account = printed(call(&folder, "share --main /words --shares 5,20 --output /account"));
    assert_eq!(account, "");
    let run = "run - --main /words --second-seed 6 --account /account --caller 1 --x /x";
    assert!(printed(call(&folder, run)).ends_with("own=10 common=0 own-left=10 common-left=0 second=13\n"));
    // words 5 to 14 are below one half, so a fault falls in each shot
    assert_eq!(fs::read(folder.join("x")).expect("rows")[..2], [0xff, 0x03]);
    fs::write(folder.join("words"), &words[..24 * 8]).expect("it can be written");
    let done = call(&folder, run);
    assert!(done.stderr.contains("account: the account is that of another list: give the list as"), "{done:?}");
}

#[test]
fn an_account_of_two_names_is_one() {
    let folder = folder("linked");
    printed(call(&folder, "share --seed 5 --words 25 --shares 10,0 --output /account"));
    std::os::unix::fs::symlink("account", folder.join("link")).expect("it can be linked");
    for (name, marks) in [("link", [10, 0, 0]), ("account", [10, 0, 10])] {
        printed(call(&folder, &format!("settle - --seed 5 --second-seed 6 --account /{name} --caller 0")));
        assert_eq!(taken(&folder), marks);
        assert!(folder.join("link").is_symlink());
    }
    assert_eq!(names(&folder), ["account", "account.lock", "link"]);
}

#[test]
fn no_account_in_use_is_written_over() {
    let folder = folder("new_accounts");
    let share = "share --seed 5 --words 25 --shares 10,0 --output /account";
    (0..2).for_each(|_| assert_eq!(printed(call(&folder, share)), ""));
    printed(call(&folder, "settle - --seed 5 --second-seed 6 --account /account --caller 0"));
    let done = call(&folder, share);
    assert!(done.status == 2 && done.stderr.contains("account: words of this account are taken"), "{done:?}");
    assert_eq!(taken(&folder), [10, 0, 0]);
    let faults = [
        ("share --words 25 --shares 10,0", "--main, --seed or --state is wanted"),
        ("share --seed 5 --words 268435457 --shares 10,0", "a list has at most 268435456 words"),
        ("fill --state 5 --words 268435457", "a list has at most 268435456 words"),
    ];
    for (arguments, message) in faults {
        let done = call(&folder, arguments);
        assert_eq!((done.status, done.stderr), (2, format!("kundatrezo: {message}\n")));
    }
}
