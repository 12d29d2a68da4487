//! What inputs reach of the Rust code, the reference's above all, where it was built with `-C instrument-coverage`.

use super::program::{Program, base};

/// The counters of `-C instrument-coverage`, and how high each was seen, by powers of two.
pub struct Counters {
    first: *mut u64,
    seen: Vec<u8>,
}

impl Counters {
    /// Those of this program; none where it was built without.
    pub fn own() -> Self {
        let section = Program::own().section("__llvm_prf_cnts");
        let (address, length) = section.map_or((0, 0), |[address, _, length]| (base() + address, length / 8));
        Self { first: address as *mut u64, seen: vec![0; length] }
    }

    /// Set all to zero.
    pub fn clear(&self) {
        // SAFETY: the section is as long, and this thread alone counts.
        unsafe { std::ptr::write_bytes(self.first, 0, self.seen.len()) };
    }

    /// How many are now higher than ever, by powers of two.
    pub fn new_ones(&mut self) -> usize {
        let mut new = 0;
        for (place, seen) in self.seen.iter_mut().enumerate() {
            // SAFETY: as above; what is compiled here doesn't know that others write them.
            let count = unsafe { self.first.add(place).read_volatile() };
            let height = (64 - count.leading_zeros()).min(8);
            if count > 0 && *seen & 1 << (height - 1) == 0 {
                *seen |= 1 << (height - 1);
                new += 1;
            }
        }
        new
    }

    /// How many were not zero after some input, and how many there are.
    pub fn hit(&self) -> (usize, usize) {
        (self.seen.iter().filter(|seen| **seen != 0).count(), self.seen.len())
    }
}
