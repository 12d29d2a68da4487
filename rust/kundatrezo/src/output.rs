//! Files that are written whole or not at all.

use std::fs::{self, File, Metadata, OpenOptions, Permissions};
use std::hash::{BuildHasher, Hasher, RandomState};
use std::io::{self, ErrorKind, Write};
use std::os::unix::ffi::OsStrExt;
use std::os::unix::fs::{MetadataExt, OpenOptionsExt, PermissionsExt, fchown};
use std::path::{Path, PathBuf};

/// A file that gets its name when it is whole.
///
/// Until [`finish`](Self::finish) the bytes go to a file beside it, `NAME.XXXXXXXXXXXXXXXX.partial` with 16 random hexadecimal digits. That file is
/// created exclusively, so it is nobody else's and no link is followed. `finish` syncs it, renames it and syncs the folder. If the value is dropped
/// before, the file is removed, and what was there under the name stays as it was. A killed process leaves its `.partial` file, which no later call
/// reads or writes.
///
/// - A file that is replaced must be writable. It hands on its mode and, if the process may set them, its owner and group. Other hard links to it
///   keep the old content.
/// - A symbolic link stays, and the file that it leads to is replaced or created.
/// - A pipe or a device is opened and written under its name; `finish` does nothing more.
///
/// ```
/// use kundatrezo::OutputFile;
/// use std::io::Write;
///
/// let path = std::env::temp_dir().join(format!("kundatrezo-example-{}", std::process::id()));
/// let mut output = OutputFile::create(&path)?;
/// output.write_all(b"whole")?;
/// assert!(!path.exists());
/// output.finish()?;
/// assert_eq!(std::fs::read(&path)?, b"whole");
/// # std::fs::remove_file(&path)?;
/// # Ok::<(), std::io::Error>(())
/// ```
#[derive(Debug)]
pub struct OutputFile {
    file: File,
    partial: Option<Partial>,
}

impl OutputFile {
    /// Begin to write a file.
    ///
    /// # Errors
    ///
    /// The folder is not there or may not be written, or the file that is there may not be written.
    pub fn create(path: impl AsRef<Path>) -> io::Result<Self> {
        let path = path.as_ref();
        let old = match fs::metadata(path) {
            Ok(found) if found.is_file() => Some(found),
            Ok(_) => return Ok(Self { file: OpenOptions::new().write(true).open(path)?, partial: None }),
            Err(error) if error.kind() == ErrorKind::NotFound => None,
            Err(error) => return Err(error),
        };
        let whole = match old {
            Some(_) => fs::canonicalize(path)?,
            None => new_path(path)?,
        };
        if old.is_some() {
            // a rename would replace a protected file, too
            OpenOptions::new().write(true).open(&whole)?;
        }
        let (file, partial) = Partial::create(whole, if old.is_some() { 0o600 } else { 0o666 })?;
        if let Some(old) = &old {
            copy_permissions(old, &file)?;
        }
        Ok(Self { file, partial: Some(partial) })
    }

    /// Sync and close the file, which does not have its name yet: several files can be written first and get their names after.
    ///
    /// # Errors
    ///
    /// The bytes could not all be stored; the file is removed.
    pub fn written(self) -> io::Result<WrittenFile> {
        if self.partial.is_some() {
            self.file.sync_all()?;
        }
        Ok(WrittenFile { partial: self.partial })
    }

    /// Sync the file and give it its name.
    ///
    /// # Errors
    ///
    /// The bytes could not all be stored, or the file could not be renamed; it is removed then, and what was there stays.
    pub fn finish(self) -> io::Result<()> {
        self.written()?.finish()
    }
}

impl Write for OutputFile {
    fn write(&mut self, bytes: &[u8]) -> io::Result<usize> {
        self.file.write(bytes)
    }

    fn flush(&mut self) -> io::Result<()> {
        self.file.flush()
    }
}

/// A whole file that does not have its name yet. If it is dropped, the file is removed.
#[derive(Debug)]
#[must_use = "it is removed unless it is finished"]
pub struct WrittenFile {
    partial: Option<Partial>,
}

impl WrittenFile {
    /// Give the file its name.
    ///
    /// # Errors
    ///
    /// The file could not be renamed; it is removed then, and what was there stays. Or the folder could not be synced.
    pub fn finish(self) -> io::Result<()> {
        self.partial.map_or(Ok(()), Partial::name)
    }
}

/// Write a whole file: [`OutputFile`] with these bytes.
///
/// # Errors
///
/// As [`OutputFile::create`] and [`OutputFile::finish`]; what was there stays.
pub fn write_file(path: impl AsRef<Path>, bytes: &[u8]) -> io::Result<()> {
    let mut output = OutputFile::create(path)?;
    output.write_all(bytes)?;
    output.finish()
}

/// A file beside the one that it will replace. It is removed unless it gets its name.
#[derive(Debug)]
struct Partial {
    path: PathBuf,
    whole: PathBuf,
    is_named: bool,
}

impl Partial {
    /// A new file under a name that nothing has.
    fn create(whole: PathBuf, mode: u32) -> io::Result<(File, Self)> {
        const TRIES: usize = 100;
        let mut fault = ErrorKind::AlreadyExists.into();
        for _ in 0..TRIES {
            let path = partial_path(&whole);
            match OpenOptions::new().write(true).create_new(true).mode(mode).open(&path) {
                Ok(file) => return Ok((file, Self { path, whole, is_named: false })),
                Err(error) if error.kind() == ErrorKind::AlreadyExists => fault = error,
                Err(error) if error.kind() == ErrorKind::PermissionDenied => {
                    return Err(io::Error::new(error.kind(), "no file may be created in its folder"));
                }
                Err(error) => return Err(error),
            }
        }
        Err(fault)
    }

    fn name(mut self) -> io::Result<()> {
        fs::rename(&self.path, &self.whole)?;
        self.is_named = true;
        self.whole.parent().map_or(Ok(()), sync_folder)
    }
}

impl Drop for Partial {
    fn drop(&mut self) {
        if !self.is_named {
            _ = fs::remove_file(&self.path);
        }
    }
}

fn partial_path(whole: &Path) -> PathBuf {
    // a file system takes names of up to 255 bytes
    const LONGEST: usize = 200;
    let name = whole.file_name().filter(|name| name.len() <= LONGEST).unwrap_or("output".as_ref());
    let random = RandomState::new().build_hasher().finish();
    let mut partial = name.to_owned();
    partial.push(format!(".{random:016x}.partial"));
    whole.with_file_name(partial)
}

/// Give a new file the mode of an old one, and its owner and group if the process may.
fn copy_permissions(old: &Metadata, file: &File) -> io::Result<()> {
    let own = file.metadata()?;
    if (own.uid(), own.gid()) != (old.uid(), old.gid()) {
        _ = fchown(file, Some(old.uid()), Some(old.gid()));
    }
    file.set_permissions(Permissions::from_mode(old.mode() & 0o777))
}

/// Have the folder's entries stored. If the folder may not be read, or the file system can't do it, the file is written all the same.
fn sync_folder(folder: &Path) -> io::Result<()> {
    const EXCUSED: [ErrorKind; 3] = [ErrorKind::PermissionDenied, ErrorKind::InvalidInput, ErrorKind::Unsupported];
    let synced = File::open(folder).and_then(|folder| folder.sync_all());
    synced.or_else(|error| if EXCUSED.contains(&error.kind()) { Ok(()) } else { Err(error) })
}

/// The path without links of the file that [`OutputFile`] writes under a name, also if it is not there yet.
///
/// # Errors
///
/// Its folder is not there or can't be read, or links lead nowhere.
pub fn written_path(path: impl AsRef<Path>) -> io::Result<PathBuf> {
    let path = path.as_ref();
    match fs::canonicalize(path) {
        Err(error) if error.kind() == ErrorKind::NotFound => new_path(path),
        found => found,
    }
}

/// The path of a file that is not there yet, without links: the name may be a link to it.
fn new_path(path: &Path) -> io::Result<PathBuf> {
    const MOST_LINKS: usize = 40;
    let mut path = path.to_owned();
    for _ in 0..MOST_LINKS {
        if path.as_os_str().as_bytes().ends_with(b"/") {
            return Err(ErrorKind::IsADirectory.into());
        }
        let name = path.file_name().ok_or(ErrorKind::NotFound)?;
        let folder = path.parent().filter(|folder| !folder.as_os_str().is_empty()).unwrap_or(".".as_ref());
        let folder = fs::canonicalize(folder)?;
        let place = folder.join(name);
        match fs::read_link(&place) {
            Ok(target) => path = folder.join(target),
            Err(_) => return Ok(place),
        }
    }
    Err(io::Error::other("too many links"))
}

/// Which file a name leads to, by device and inode, or by its place if it is not there yet. Two names of one file are equal.
///
/// ```
/// use kundatrezo::FileId;
///
/// assert_eq!(FileId::of("new"), FileId::of("./new"));
/// assert_ne!(FileId::of("new"), FileId::of("other"));
/// assert_eq!(FileId::of("/dev/null"), None);
/// ```
#[derive(Debug, Clone, PartialEq, Eq, Hash)]
pub struct FileId(Id);

#[derive(Debug, Clone, PartialEq, Eq, Hash)]
enum Id {
    There { device: u64, inode: u64 },
    New(PathBuf),
}

impl FileId {
    /// The file of this name; none for a pipe, a device or a folder.
    #[must_use]
    pub fn of(path: impl AsRef<Path>) -> Option<Self> {
        let path = path.as_ref();
        match fs::metadata(path) {
            Ok(found) => Self::of_metadata(&found),
            Err(_) => Some(Self(Id::New(new_path(path).unwrap_or_else(|_| path.to_owned())))),
        }
    }

    /// The file that has this metadata; none for a pipe, a device or a folder.
    #[must_use]
    pub fn of_metadata(found: &Metadata) -> Option<Self> {
        found.is_file().then(|| Self(Id::There { device: found.dev(), inode: found.ino() }))
    }
}
