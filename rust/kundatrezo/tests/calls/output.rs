//! Files that are written whole or not at all.

use kundatrezo::{FileId, OutputFile, write_file};
use std::fs::{self, OpenOptions, Permissions};
use std::io::Write;
use std::os::unix::fs::{PermissionsExt, symlink};
use std::path::{Path, PathBuf};

/// A new folder for the files of a test.
fn folder(name: &str) -> PathBuf {
    let folder = PathBuf::from(env!("CARGO_TARGET_TMPDIR")).join(name);
    _ = fs::remove_dir_all(&folder);
    fs::create_dir_all(&folder).expect("the folder can be made");
    folder
}

/// The names in a folder, sorted.
fn names(folder: &Path) -> Vec<String> {
    let entries = fs::read_dir(folder).expect("a folder").map(|entry| entry.expect("an entry").file_name());
    let mut names: Vec<String> = entries.map(|name| name.into_string().expect("text")).collect();
    names.sort();
    names
}

fn mode(path: &Path) -> u32 {
    fs::metadata(path).expect("a file").permissions().mode() & 0o777
}

#[test]
fn a_file_is_there_when_it_is_whole() {
    let folder = folder("whole");
    let path = folder.join("file");
    fs::write(&path, "old").expect("it can be written");
    let mut output = OutputFile::create(&path).expect("a file");
    output.write_all(b"new").expect("room");
    assert_eq!(fs::read(&path).expect("a file"), b"old");
    let [name, partial] = names(&folder).try_into().expect("two files");
    assert_eq!(name, "file");
    let digits = partial.strip_prefix("file.").and_then(|rest| rest.strip_suffix(".partial")).expect("its form");
    assert!(digits.len() == 16 && digits.bytes().all(|byte| byte.is_ascii_hexdigit()), "{partial}");
    let written = output.written().expect("it is synced");
    assert_eq!(fs::read(&path).expect("a file"), b"old");
    written.finish().expect("it is renamed");
    assert_eq!((fs::read(&path).expect("a file"), names(&folder)), (b"new".to_vec(), vec!["file".into()]));
}

#[test]
fn what_is_dropped_leaves_nothing() {
    let folder = folder("dropped");
    let path = folder.join("file");
    fs::write(&path, "old").expect("it can be written");
    drop(OutputFile::create(&path).expect("a file"));
    drop(OutputFile::create(&path).and_then(OutputFile::written).expect("a file"));
    let panicked = std::panic::catch_unwind(|| {
        let _output = OutputFile::create(&path).expect("a file");
        std::panic::resume_unwind(Box::new(()));
    });
    assert!(panicked.is_err());
    // a folder of that name, which appears meanwhile, can't be replaced
    let output = OutputFile::create(folder.join("other")).expect("a file");
    fs::create_dir(folder.join("other")).expect("a folder");
    assert!(output.finish().is_err());
    assert_eq!(
        (fs::read(&path).expect("a file"), names(&folder)),
        (b"old".to_vec(), vec!["file".into(), "other".into()])
    );
}

#[test]
fn modes_are_handed_on() {
    let folder = folder("modes");
    let path = folder.join("file");
    for own in [0o600, 0o640, 0o755] {
        fs::write(&path, "old").expect("it can be written");
        fs::set_permissions(&path, Permissions::from_mode(own)).expect("a mode");
        let output = OutputFile::create(&path).expect("a file");
        let partial = names(&folder).pop().expect("a partial file");
        assert_eq!(mode(&folder.join(partial)), own);
        output.finish().expect("it is renamed");
        assert_eq!(mode(&path), own);
    }
    // a new file has the mode of any other new file
    write_file(folder.join("new"), b"").expect("it can be written");
    fs::write(folder.join("plain"), b"").expect("it can be written");
    assert_eq!(mode(&folder.join("new")), mode(&folder.join("plain")));
}

/// A file that may not be written is not replaced. Root may write all, so that this can't be seen there.
#[test]
fn protected_files_stay() {
    let path = folder("protected").join("file");
    fs::write(&path, "old").expect("it can be written");
    fs::set_permissions(&path, Permissions::from_mode(0o444)).expect("a mode");
    let is_root = OpenOptions::new().write(true).open(&path).is_ok();
    assert_eq!(write_file(&path, b"new").is_ok(), is_root);
}

#[test]
fn links_stay_and_lead_to_what_is_written() {
    let folder = folder("links");
    fs::create_dir(folder.join("inner")).expect("a folder");
    fs::write(folder.join("inner/file"), "old").expect("it can be written");
    // one leads to a file, one by another to a file that is not there, one nowhere, one to itself
    let links = [
        ("there", "inner/file"),
        ("first", "second"),
        ("second", "inner/new"),
        ("lost", "gone/file"),
        ("self", "self"),
    ];
    for (link, target) in links {
        symlink(target, folder.join(link)).expect("a link");
    }
    write_file(folder.join("there"), b"new").expect("it can be written");
    write_file(folder.join("first"), b"new").expect("it can be written");
    for name in ["lost", "self", "gone/", "inner", "inner/file/file", ""] {
        assert!(write_file(folder.join(name), b"new").is_err(), "{name}");
    }
    assert!(links.iter().all(|(link, _)| folder.join(link).is_symlink()));
    assert_eq!(names(&folder.join("inner")), ["file", "new"]);
    assert!(
        names(&folder.join("inner"))
            .iter()
            .all(|name| fs::read(folder.join("inner").join(name)).expect("a file") == b"new")
    );
    assert_eq!(names(&folder).len(), 6);
}

/// As long a name as a file system takes.
#[test]
fn long_names() {
    let path = folder("long").join("n".repeat(255));
    (0..2).for_each(|_| write_file(&path, b"new").expect("it can be written"));
    assert_eq!(fs::read(&path).expect("a file"), b"new");
}

#[test]
fn devices_are_written_under_their_names() {
    write_file("/dev/null", b"new").expect("it takes all");
    let error = write_file("/dev/full", b"new").expect_err("it takes nothing");
    assert_eq!(error.kind(), std::io::ErrorKind::StorageFull);
}

#[test]
fn names_of_one_file_are_equal() {
    let folder = folder("ids");
    fs::write(folder.join("file"), "").expect("it can be written");
    fs::hard_link(folder.join("file"), folder.join("hard")).expect("a link");
    symlink("file", folder.join("soft")).expect("a link");
    symlink("new", folder.join("early")).expect("a link");
    symlink("/dev/null", folder.join("null")).expect("a link");
    let id = |name: &str| FileId::of(folder.join(name));
    assert!(
        id("file").is_some() && id("file") == id("hard") && id("file") == id("soft") && id("file") == id("../ids/file")
    );
    assert!(id("new").is_some() && id("new") == id("early") && id("new") == id("../ids/./new"));
    assert!(id("new") != id("file") && id("new") != id("newer") && id("gone/new") != id("new"));
    assert!(id("null").is_none() && id(".").is_none());
}
