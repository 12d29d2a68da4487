//! The notes of document 02 that have landed. A landing adds its number here: the stored cases that hold are chosen by it.

/// The landed notes.
pub const LANDED: &[u64] = &[1, 2, 3, 4, 5, 6, 7, 8, 9, 10, 11, 12, 13, 14];

/// Whether a note has landed.
#[must_use]
pub fn has_landed(note: u64) -> bool {
    LANDED.contains(&note)
}
