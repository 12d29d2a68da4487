//! Jobs and words in files.

use crate::Failure;
use kundatrezo::{FileId, MAX_BYTES, MAX_OUTCOMES, MAX_SHOTS, OutputFile, WrittenFile, write_file};
use std::ffi::{OsStr, OsString};
use std::fs::File;
use std::io::{self, Read, Write};
use std::os::fd::AsFd;
use std::os::unix::ffi::OsStrExt;
use std::path::Path;

/// A file that is read, or standard input for `-`.
pub fn open(path: &OsStr) -> Result<Box<dyn Read>, Failure> {
    if path == "-" {
        return Ok(Box::new(io::stdin().lock()));
    }
    Ok(Box::new(File::open(path).map_err(|error| fault(path, &error))?))
}

/// A file of which any place can be read.
pub fn open_file(path: &OsStr) -> Result<File, Failure> {
    File::open(path).map_err(|error| fault(path, &error))
}

/// Most bytes of a text of counts or sets: 64 MiB.
const MOST_TEXT: u64 = 1 << 26;

/// A text, read no further than its longest.
pub fn text(path: &OsStr) -> Result<String, Failure> {
    text_of(path, &mut open(path)?, MOST_TEXT)
}

/// The text of a file of at most `most` bytes.
pub fn text_of(path: &OsStr, file: &mut dyn Read, most: u64) -> Result<String, Failure> {
    let mut text = String::new();
    file.take(most + 1).read_to_string(&mut text).map_err(|error| fault(path, &error))?;
    if text.len() as u64 > most {
        return Err(Failure::Other(format!("{}: the text has more than {most} bytes", shown(path))));
    }
    Ok(text)
}

/// The bytes of a job. A longer file than a job may be is read no further than one byte past that, which is enough to have it refused.
pub fn job(path: &OsStr) -> Result<Vec<u8>, Failure> {
    let mut bytes = Vec::new();
    open(path)?.take(MAX_BYTES as u64 + 1).read_to_end(&mut bytes).map_err(|error| fault(path, &error))?;
    Ok(bytes)
}

/// The next words of a file, eight bytes each, the lowest first: as many as this, or fewer where it ends.
pub fn words(path: &OsStr, source: &mut dyn Read, count: usize) -> Result<Vec<u64>, Failure> {
    let mut words = Vec::new();
    append_words(path, source, count, &mut words)?;
    Ok(words)
}

/// The same at the end of a list, piece by piece: the bytes take no memory beside the words.
pub fn append_words(path: &OsStr, source: &mut dyn Read, count: usize, words: &mut Vec<u64>) -> Result<(), Failure> {
    const PIECE: usize = 1 << 16;
    let end = words.len().saturating_add(count);
    let mut bytes = Vec::with_capacity(PIECE);
    while words.len() < end {
        bytes.clear();
        let length = (end - words.len()).saturating_mul(8).min(PIECE);
        source.take(length as u64).read_to_end(&mut bytes).map_err(|error| fault(path, &error))?;
        let (whole, rest) = bytes.as_chunks();
        if !rest.is_empty() {
            let text = format!("{}: its bytes are no whole number of 64-bit words", shown(path));
            return Err(Failure::Other(text));
        }
        words.extend(whole.iter().map(|word| u64::from_le_bytes(*word)));
        if bytes.len() < length {
            break;
        }
    }
    Ok(())
}

/// Leave out the next words of a file.
pub fn skip_words(path: &OsStr, source: &mut dyn Read, count: u64) -> Result<(), Failure> {
    let bytes = count.saturating_mul(8);
    io::copy(&mut source.take(bytes), &mut io::sink()).map_err(|error| fault(path, &error)).map(drop)
}

/// The words of a file of rows, no more than the largest job has.
pub fn rows(path: &OsStr) -> Result<Vec<u64>, Failure> {
    const MOST: usize = MAX_OUTCOMES * MAX_SHOTS / 64;
    let words = words(path, &mut open(path)?, MOST + 1)?;
    if words.len() > MOST {
        return Err(Failure::Other(format!("{}: no job has rows of more than {MOST} words", shown(path))));
    }
    Ok(words)
}

/// Words as bytes, eight each, the lowest first.
pub fn bytes_of(words: &[u64]) -> Vec<u8> {
    words.iter().flat_map(|word| word.to_le_bytes()).collect()
}

/// What is written piece by piece, to a file or to standard output.
pub struct Output {
    file: Option<(OsString, OutputFile)>,
}

impl Output {
    pub fn create(path: Option<&OsStr>) -> Result<Self, Failure> {
        let create = |path: &OsStr| OutputFile::create(path).map_err(|error| fault(path, &error));
        let file = path.map(|path| create(path).map(|file| (path.to_owned(), file))).transpose()?;
        Ok(Self { file })
    }

    pub fn write(&mut self, bytes: &[u8]) -> Result<(), Failure> {
        match &mut self.file {
            Some((path, file)) => file.write_all(bytes).map_err(|error| fault(path, &error)),
            None => Ok(io::stdout().lock().write_all(bytes)?),
        }
    }

    /// See that all of it is written, and give the file its name.
    pub fn finish(self) -> Result<(), Failure> {
        match self.file {
            Some((path, file)) => file.finish().map_err(|error| fault(&path, &error)),
            None => Ok(io::stdout().lock().flush()?),
        }
    }
}

/// The files that a command writes. They get their names together, when all are written: if one can't be, all that was there stays.
#[derive(Default)]
pub struct Outputs {
    begun: Vec<(OsString, OutputFile)>,
    written: Vec<(OsString, WrittenFile)>,
}

impl Outputs {
    /// Begin to write these files: one that can't be written is found before the work. Pipes and devices are opened when they are written.
    pub fn create<'a>(paths: impl IntoIterator<Item = &'a OsStr>) -> Result<Self, Failure> {
        let mut outputs = Self::default();
        for path in paths.into_iter().filter(|path| FileId::of(path).is_some()) {
            let file = OutputFile::create(path).map_err(|error| fault(path, &error))?;
            outputs.begun.push((path.to_owned(), file));
        }
        Ok(outputs)
    }

    /// Write the bytes of a file. A pipe or a device has them at once, and is closed.
    pub fn write(&mut self, path: &OsStr, bytes: &[u8]) -> Result<(), Failure> {
        let begun = self.begun.iter().position(|(own, _)| own == path).map(|place| self.begun.swap_remove(place).1);
        let written = begun.map_or_else(|| OutputFile::create(path), Ok).and_then(|mut file| {
            file.write_all(bytes)?;
            file.written()
        });
        self.written.push((path.to_owned(), written.map_err(|error| fault(path, &error))?));
        Ok(())
    }

    /// Give the files their names.
    pub fn finish(self) -> Result<(), Failure> {
        for (path, written) in self.written {
            written.finish().map_err(|error| fault(&path, &error))?;
        }
        Ok(())
    }
}

/// Write bytes to a file.
pub fn write(path: &OsStr, bytes: &[u8]) -> Result<(), Failure> {
    write_file(path, bytes).map_err(|error| fault(path, &error))
}

/// What went wrong with a file.
pub fn fault(path: &OsStr, error: &io::Error) -> Failure {
    Failure::Other(format!("{}: {error}", shown(path)))
}

/// A name, or another argument, as messages show it: what is no printable text is escaped.
pub fn shown(name: &OsStr) -> String {
    let mut text = String::new();
    for chunk in name.as_bytes().utf8_chunks() {
        for letter in chunk.valid().chars() {
            match letter {
                '\'' | '"' => text.push(letter),
                _ => text.extend(letter.escape_debug()),
            }
        }
        text.extend(chunk.invalid().iter().map(|byte| format!("\\x{byte:02x}")));
    }
    text
}

/// What a command reads and writes, by the names that its arguments give.
#[derive(Default)]
pub struct Names {
    /// Each file that is read, standard input as `-`.
    pub inputs: Vec<OsString>,
    pub outputs: Vec<OsString>,
}

impl Names {
    /// Check that no output is an input too, or is named twice: one would destroy the other. Pipes and devices may be.
    pub fn check(&self) -> Result<(), Failure> {
        let refused = |path: &OsStr, what: &str| Err(Failure::Other(format!("{}: {what}", shown(path))));
        let inputs: Vec<FileId> = self.inputs.iter().filter_map(|path| input_id(path)).collect();
        let printed = [standard(io::stdout()), standard(io::stderr())];
        let mut outputs = Vec::new();
        for path in &self.outputs {
            // elsewhere - stands for standard input
            if *path == "-" {
                return Err(Failure::Other("what is written goes to a file, and - is none".into()));
            }
            if Path::new(path).is_dir() {
                return refused(path, "this is a folder, and what is written goes to a file");
            }
            let Some(id) = FileId::of(path) else {
                continue;
            };
            if inputs.contains(&id) {
                return refused(path, "this file is read, too, and would be overwritten; write to another");
            }
            if outputs.contains(&id) {
                return refused(path, "this file is named for two outputs; give each a file of its own");
            }
            if printed.contains(&Some(id.clone())) {
                return refused(path, "standard output or standard error goes to this file, too; write to another");
            }
            outputs.push(id);
        }
        Ok(())
    }
}

fn input_id(path: &OsStr) -> Option<FileId> {
    if path == "-" { standard(io::stdin()) } else { FileId::of(path) }
}

/// The plain file that a standard stream reads or writes.
fn standard(stream: impl AsFd) -> Option<FileId> {
    let file = File::from(stream.as_fd().try_clone_to_owned().ok()?);
    FileId::of_metadata(&file.metadata().ok()?)
}
