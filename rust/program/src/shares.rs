//! A main list that several callers have shares of: its account, in a file.

use crate::arguments::{ACCOUNT_FILE, Arguments, Flag};
use crate::commands::{OUTPUT, list, write_out};
use crate::files::shown;
use crate::words::{self, List};
use crate::{Failure, files};
use kundatrezo::{AccountError, Caller, FileId, MAX_CALLERS, Number, Refusal, SharedDraws, written_path};
use std::ffi::{OsStr, OsString};
use std::fs::{self, File, OpenOptions, Permissions, TryLockError};
use std::io::{self, ErrorKind, Read};
use std::os::unix::fs::{MetadataExt, PermissionsExt, fchown};
use std::path::PathBuf;

const SHARES: Flag = Flag {
    name: "--shares",
    value: "L",
    text: "the words of each caller's stretch, with commas between, caller 0 first",
};
const ACCOUNT: Flag = Flag {
    name: "--account",
    value: ACCOUNT_FILE,
    text: "draw from the shared list of this account, and bring it up to date",
};
const CALLER: Flag = Flag { name: "--caller", value: "N", text: "the caller of the account who draws, from 0" };

/// Those of the command `share`, and those of a run or of settling.
pub const NEW_FLAGS: &[Flag] = &[SHARES];
pub const FLAGS: &[Flag] = &[ACCOUNT, CALLER];

pub const NEW: &str = "\
Shares a main list among 1 to 8 callers: each has a stretch of it, in their order from its front, and the rest
is common. Writes the list's account, of which nothing is taken yet: 'list=' and 'sum=' with the list's length
and a check sum, then for each caller 'share=' with the length of the stretch and 'taken=' with the words taken
of it, the same of the common part, and 'seal=' with a check sum of these lines. --shares is wanted, and --words
if the words are made or the file has no end. An account in use is not written over.";

pub const DETAILS: &str = "\
With --account and --caller a job draws from a list that several callers share ('kundatrezo share'): words of
the caller's own stretch first, then common ones, and none twice. The list is given as for the account, without
--words. The account is locked while the job runs, by the file ACCOUNT.lock, which stays. It is brought up to
date when the job is done, before any other file is written, and when it is refused by 14; any other refusal
takes no word. A run's last line has 'own=' and 'common=' with the words that it took of either part, and
'own-left=' and 'common-left=' with those that are left; 'second=' is as without shares.";

/// The command `share`: the account of a list of which nothing is taken.
pub fn print_account(arguments: &Arguments) -> Result<(), Failure> {
    let shares = arguments.parsed(SHARES.name, "numbers with commas between", list)?;
    let shares = shares.ok_or_else(|| Failure::Other(format!("{} is wanted", SHARES.name)))?;
    let path = arguments.value(OUTPUT.name).filter(|path| FileId::of(path).is_some());
    path.map(test_unused).transpose()?;
    let main = List::whole(arguments)?;
    if !main.is_given() {
        return Err(Failure::Other("--main, --seed or --state is wanted".into()));
    }
    let draws = SharedDraws::new(&main.words, &shares).map_err(|refusal| {
        let words = main.words.len();
        let hint = format!("1 to {MAX_CALLERS} shares, whose sum is at most the list's {words} words");
        Failure::refused(&refusal, b"", Some(hint))
    })?;
    // while the list was read, an account of this name may have been made and drawn from
    let lock = path.map(Lock::of).transpose()?;
    path.map(test_unused).transpose()?;
    write_out(arguments, draws.to_string().as_bytes())?;
    drop(lock);
    Ok(())
}

/// That no account in use is written over: its words would be handed out again. An edited one may be in use.
fn test_unused(path: &OsStr) -> Result<(), Failure> {
    let mut start = Vec::new();
    let is_account = match File::open(path) {
        Ok(file) => file.take(5).read_to_end(&mut start).is_ok() && start == b"list=",
        Err(_) => false,
    };
    if is_account && !SharedDraws::marks_of(&read_account(path)?).is_ok_and(|marks| marks.iter().all(|mark| *mark == 0))
    {
        let text = "words of this account are taken, or it was edited, and a new one would hand them out again; if it \
                    is to, remove this file";
        return Err(Failure::Other(format!("{}: {text}", shown(path))));
    }
    Ok(())
}

/// The text of an account, which is a plain file with one name.
fn read_account(path: &OsStr) -> Result<String, Failure> {
    // eight callers with the largest numbers have half of this
    const MOST_BYTES: u64 = 1024;
    let refused = |text: &str| Err(Failure::Other(format!("{}: {text}", shown(path))));
    let found = fs::metadata(path).map_err(|error| files::fault(path, &error))?;
    if !found.is_file() {
        return refused("an account is a plain file, and this is none");
    }
    if found.nlink() > 1 {
        return refused(
            "the account has more than one name (hard links), and another would hand its words out again; leave it one",
        );
    }
    files::text_of(path, &mut files::open_file(path)?, MOST_BYTES)
}

/// A caller of an account.
pub struct Share {
    path: OsString,
    account: String,
    caller: usize,
    /// What the last line of a run says.
    pub report: String,
    /// The words that were available to the job.
    pub available: Vec<u64>,
    /// Until the account is brought up to date.
    lock: Option<Lock>,
}

/// What a job leaves of the list: its account, what a run says of it, and the words that the job had.
pub struct Left {
    account: String,
    report: String,
    available: Vec<u64>,
}

impl Share {
    /// What the options of a run or of settling name.
    pub fn read(arguments: &Arguments) -> Result<Option<Self>, Failure> {
        let (path, caller) = match (arguments.value(ACCOUNT.name), arguments.number(CALLER.name)?) {
            (None, None) => return Ok(None),
            (Some(path), Some(caller)) => (path, usize::try_from(caller).unwrap_or(usize::MAX)),
            _ => return Err(Failure::Other(format!("{} and {} go together", ACCOUNT.name, CALLER.name))),
        };
        // what is no plain file gets no lock beside it
        read_account(path)?;
        let path = written_path(path).map_err(|error| files::fault(path, &error))?.into_os_string();
        let lock = Lock::of(&path)?;
        let account = read_account(&path)?;
        Ok(Some(Self { path, account, caller, report: String::new(), available: Vec::new(), lock: Some(lock) }))
    }

    /// How many words the list has.
    pub fn length(&self) -> Result<usize, Failure> {
        let length = SharedDraws::length_of(&self.account).and_then(|length| usize::try_from(length).ok());
        let fault = || self.fault(&SharedDraws::marks_of(&self.account).err().unwrap_or(AccountError::Form));
        length.filter(|length| *length <= words::MOST).ok_or_else(fault)
    }

    fn fault(&self, error: &AccountError) -> Failure {
        let hint = match error {
            AccountError::OtherList => {
                ": give the list as 'share' was given it, by --main, --seed or --state, and --skip"
            }
            _ => "",
        };
        Failure::Other(format!("{}: {error}{hint}", shown(&self.path)))
    }

    /// Make a call that draws from the list, and say what it leaves. The account stays as it is until this is kept.
    pub fn call<T>(
        &self,
        main: &[u64],
        call: impl FnOnce(Caller<'_>) -> Result<T, Refusal>,
    ) -> Result<(Result<T, Refusal>, Left), Failure> {
        let mut draws = SharedDraws::from_account(main, &self.account).map_err(|error| self.fault(&error))?;
        let is_caller = self.caller < draws.callers();
        let before = draws.marks().to_vec();
        let available = if is_caller { draws.available(self.caller).concat() } else { Vec::new() };
        let answer = call(draws.caller(self.caller));
        let report = if is_caller { self.report(&before, &draws) } else { String::new() };
        Ok((answer, Left { account: draws.to_string(), report, available }))
    }

    fn report(&self, before: &[u64], draws: &SharedDraws<'_>) -> String {
        let taken = |part: usize| draws.marks()[part] - before[part];
        let (own, common) = (taken(self.caller), taken(draws.callers()));
        let (own_left, common_left) = (draws.own_left(self.caller), draws.common_left());
        format!("own={own} common={common} own-left={own_left} common-left={common_left}")
    }

    /// Bring the account up to date, before anything else is written: what fails later has used words up, and handed none out twice.
    pub fn keep(&mut self, left: Left) -> Result<(), Failure> {
        if left.account != self.account {
            if !self.lock.as_ref().is_some_and(Lock::is_held) || read_account(&self.path)? != self.account {
                let text = "the account or its lock was changed while the job ran; nothing is written, run it again";
                return Err(Failure::Other(format!("{}: {text}", shown(&self.path))));
            }
            files::write(&self.path, left.account.as_bytes())?;
        }
        // others may draw while this job's files are written
        self.lock = None;
        (self.report, self.available) = (left.report, left.available);
        Ok(())
    }

    /// What to do about a refusal by 14 at a line that reads the main list, or by 26.
    pub fn hint(&self, refusal: &Refusal) -> Option<String> {
        let callers = self.account.lines().filter(|line| line.starts_with("caller=")).count();
        match refusal.number {
            Number::CALLER => Some(format!("the callers of this account are 0 to {}", callers.saturating_sub(1))),
            Number::DRAWS => Some(format!("the stretch of caller {} and the common part are used up", self.caller)),
            _ => None,
        }
    }
}

/// The file whose lock a user of an account holds.
pub fn lock_name(account: &OsStr) -> OsString {
    // an account that is called by several names, as by a link, has one lock
    let mut lock = written_path(account).map_or_else(|_| account.to_owned(), PathBuf::into_os_string);
    lock.push(".lock");
    lock
}

/// The system's lock on a file beside the account: no other process draws by the account meanwhile. The file stays, and the lock is gone with the
/// process, however it ends.
struct Lock {
    path: OsString,
    file: File,
}

impl Lock {
    fn of(account: &OsStr) -> Result<Self, Failure> {
        const TRIES: usize = 10;
        let path = lock_name(account);
        for _ in 0..TRIES {
            let file = open_lock(&path, account).map_err(|error| files::fault(&path, &error))?;
            file.try_lock().map_err(|error| match error {
                TryLockError::WouldBlock => {
                    Failure::Other(format!("{}: another run draws by this account; try again later", shown(account)))
                }
                TryLockError::Error(error) => files::fault(&path, &error),
            })?;
            let lock = Self { path: path.clone(), file };
            // it may have been removed between opening and locking
            if lock.is_held() {
                return Ok(lock);
            }
        }
        Err(Failure::Other(format!("{}: this file can't be locked, since it is a link or is removed", shown(&path))))
    }

    /// Whether the locked file still has its name: another process locks the file of that name.
    fn is_held(&self) -> bool {
        let [own, named] = [self.file.metadata(), fs::symlink_metadata(&self.path)]
            .map(|found| found.ok().as_ref().and_then(FileId::of_metadata));
        own.is_some() && own == named
    }
}

/// A new file has the account's mode and, if the process may set it, its owner: whoever may write the account may lock it.
fn open_lock(path: &OsStr, account: &OsStr) -> io::Result<File> {
    match OpenOptions::new().read(true).write(true).create_new(true).open(path) {
        Ok(file) => {
            if let Ok(account) = fs::metadata(account) {
                _ = fchown(&file, Some(account.uid()), Some(account.gid()));
                file.set_permissions(Permissions::from_mode(account.mode() & 0o666))?;
            }
            Ok(file)
        }
        Err(error) if error.kind() == ErrorKind::AlreadyExists => OpenOptions::new().read(true).write(true).open(path),
        Err(error) => Err(error),
    }
}
