//! This program's own file: where its sections lie.

/// This program's file.
pub struct Program(Vec<u8>);

impl Program {
    /// That of this process.
    pub fn own() -> Self {
        Self(std::fs::read("/proc/self/exe").unwrap_or_default())
    }

    /// A number at a place of the file.
    pub fn number(&self, place: usize, bytes: usize) -> usize {
        let read = self.0.get(place..place + bytes).unwrap_or_default();
        read.iter().rev().fold(0, |number, byte| number << 8 | usize::from(*byte))
    }

    /// The text at a place, up to a zero byte.
    pub fn text(&self, place: usize) -> String {
        let text = self.0.get(place..).and_then(|bytes| bytes.split(|&byte| byte == 0).next());
        String::from_utf8_lossy(text.unwrap_or_default()).into_owned()
    }

    /// A section by its name: its address, its place in the file and its length.
    pub fn section(&self, name: &str) -> Option<[usize; 3]> {
        let (start, size) = (self.number(0x28, 8), self.number(0x3a, 2));
        let (count, names) = (self.number(0x3c, 2), self.number(0x3e, 2));
        let names = self.number(start + names * size + 0x18, 8);
        (0..count).map(|section| start + section * size).find_map(|section| {
            let is_named = self.text(names + self.number(section, 4)) == name;
            is_named.then(|| [0x10, 0x18, 0x20].map(|field| self.number(section + field, 8)))
        })
    }
}

unsafe extern "C" {
    /// Where this program's file begins in memory; the linker says it.
    static __ehdr_start: u8;
}

/// What is added to an address of the file.
pub fn base() -> usize {
    &raw const __ehdr_start as usize
}
