//! Calls on lists that end where memory ends: behind each lent list lies a page that nothing may touch, before it bytes that must stay. A list that a call
//! only reads must stay, too.

use checker::calls::{Answer, Asked, Calls, Draws, Rows, Share};
use std::cell::Cell;

/// The number of an answer after which something had changed that must stay.
const CHANGED: u64 = u64::MAX;

/// How many bytes a list may have here.
const ROOM: usize = 4 << 20;
const PAGE: usize = 4096;
/// How many bytes before a list are looked at, and what they are.
const BEFORE: usize = 64;
const BEFORE_BYTE: u8 = 0xa5;
/// The lists of a call, at most.
const LISTS: usize = 12;

unsafe extern "C" {
    fn mmap(start: *mut u8, length: usize, access: i32, flags: i32, file: i32, offset: i64) -> *mut u8;
    fn mprotect(start: *mut u8, length: usize, access: i32) -> i32;
}

/// Calls on lists between guards.
pub struct Guarded<'a> {
    calls: &'a dyn Calls,
    /// Where the memory of each list of a call ends.
    ends: Vec<*mut u8>,
    /// How many lists the call has so far.
    lists: Cell<usize>,
}

// SAFETY, for all below: each list of a call has memory of its own, with room for it and for what is before it, and nothing else refers to that memory
// until the next call.

/// The copy of a list that a call reads.
struct Read<'a, T> {
    own: &'a [T],
    copy: *mut T,
}

impl<'a, T: PartialEq> Read<'a, T> {
    fn list(&self) -> &'a [T] {
        unsafe { std::slice::from_raw_parts(self.copy, self.own.len()) }
    }

    fn stays(&self) -> bool {
        before_stays(self.copy) && self.list() == self.own
    }
}

/// The copy of a list that a call writes.
struct Written<'a, T> {
    own: &'a mut [T],
    copy: *mut T,
}

impl<'a, T: Copy> Written<'a, T> {
    fn list(&mut self) -> &'a mut [T] {
        unsafe { std::slice::from_raw_parts_mut(self.copy, self.own.len()) }
    }

    /// Copy it back; whether what is before it stays.
    fn back(mut self) -> bool {
        let list = self.list();
        self.own.copy_from_slice(list);
        before_stays(self.copy)
    }
}

fn before_stays<T>(copy: *const T) -> bool {
    let before = unsafe { std::slice::from_raw_parts(copy.cast::<u8>().sub(BEFORE), BEFORE) };
    before.iter().all(|byte| *byte == BEFORE_BYTE)
}

impl<'a> Guarded<'a> {
    /// The same calls on lists between guards.
    pub fn new(calls: &'a dyn Calls) -> Self {
        let end = || unsafe {
            // to be read and written, private, of no file
            let start = mmap(std::ptr::null_mut(), ROOM + 2 * PAGE, 3, 0x22, -1, 0);
            assert!(start as isize != -1, "memory for guarded lists");
            let end = start.add(ROOM + PAGE);
            assert_eq!(mprotect(end, PAGE, 0), 0, "a page that nothing may touch");
            end
        };
        Self { calls, ends: (0..LISTS).map(|_| end()).collect(), lists: Cell::new(0) }
    }

    fn copy<T: Copy>(&self, list: &[T]) -> *mut T {
        let bytes = std::mem::size_of_val(list);
        assert!(bytes <= ROOM, "a list that the memory between guards has room for");
        let start = unsafe { self.ends[self.lists.get()].sub(bytes) };
        self.lists.set(self.lists.get() + 1);
        unsafe {
            std::ptr::write_bytes(start.sub(BEFORE), BEFORE_BYTE, BEFORE);
            std::ptr::copy_nonoverlapping(list.as_ptr().cast::<u8>(), start, bytes);
        }
        start.cast::<T>()
    }

    fn read<'b, T: Copy>(&self, own: &'b [T]) -> Read<'b, T> {
        Read { own, copy: self.copy(own) }
    }

    fn written<'b, T: Copy>(&self, own: &'b mut [T]) -> Written<'b, T> {
        let copy = self.copy(own);
        Written { own, copy }
    }

    /// Make a call; it says whether everything stayed that must.
    fn call(&self, make: impl FnOnce() -> (Answer, bool)) -> Answer {
        self.lists.set(0);
        let (answer, stays) = make();
        if stays { answer } else { Answer { number: CHANGED, ..answer } }
    }

    /// Look at a job between guards.
    pub fn with_job<T>(&self, job: &[u8], look: impl FnOnce(&[u8]) -> T) -> T {
        self.lists.set(0);
        look(self.read(job).list())
    }

    /// A call on a job that writes nothing.
    fn only_read(&self, job: &[u8], make: impl FnOnce(&[u8]) -> Answer) -> Answer {
        self.call(|| {
            let job = self.read(job);
            (make(job.list()), job.stays())
        })
    }

    /// A call on a job and draws, and what more it is lent.
    fn drawing(
        &self,
        (job, draws, noiseless): (&[u8], Draws<'_>, &[u64]),
        make: impl FnOnce(&[u8], Draws<'_>, &[u64]) -> (Answer, bool),
    ) -> Answer {
        self.call(|| {
            let (job, noiseless) = (self.read(job), self.read(noiseless));
            let (main, second) = (self.read(draws.main), self.read(draws.second));
            let lent = Draws { main: main.list(), second: second.list(), ..draws };
            let (answer, stays) = make(job.list(), lent, noiseless.list());
            (answer, stays & job.stays() & noiseless.stays() & main.stays() & second.stays())
        })
    }

    /// A run with these rows.
    fn running(&self, rows: Rows<'_>, make: impl FnOnce(Rows<'_>) -> (Answer, bool)) -> (Answer, bool) {
        let (mut x, mut z, mut deltas) =
            (self.written(rows.frames_x), self.written(rows.frames_z), self.written(rows.deltas));
        let mut totals = rows.totals.map(|totals| self.written(totals));
        let (answer, stays) = make(Rows {
            frames_x: x.list(),
            frames_z: z.list(),
            deltas: deltas.list(),
            totals: totals.as_mut().map(Written::list),
        });
        (answer, stays & x.back() & z.back() & deltas.back() & totals.is_none_or(Written::back))
    }

    /// A call with a share.
    fn sharing(&self, share: Share<'_>, make: impl FnOnce(Share<'_>) -> (Answer, bool)) -> (Answer, bool) {
        let (shares, mut marks) = (self.read(share.shares), self.written(share.marks));
        let (answer, stays) = make(Share { shares: shares.list(), marks: marks.list(), caller: share.caller });
        (answer, stays & shares.stays() & marks.back())
    }

    /// A call that writes a list.
    fn writing<T: Copy>(&self, out: &mut [T], make: impl FnOnce(&mut [T]) -> Answer) -> (Answer, bool) {
        let mut out = self.written(out);
        (make(out.list()), out.back())
    }

    /// A call that reads a list and writes one.
    fn turning(&self, from: &[u64], to: &mut [u64], make: impl FnOnce(&[u64], &mut [u64]) -> Answer) -> Answer {
        self.call(|| {
            let from = self.read(from);
            let (answer, stays) = self.writing(to, |to| make(from.list(), to));
            (answer, stays & from.stays())
        })
    }
}

impl Calls for Guarded<'_> {
    fn check(&self, job: &[u8]) -> Answer {
        self.only_read(job, |job| self.calls.check(job))
    }

    fn run(&self, job: &[u8], draws: Draws<'_>, noiseless: &[u64], rows: Rows<'_>) -> Answer {
        self.drawing((job, draws, noiseless), |job, draws, noiseless| {
            self.running(rows, |rows| (self.calls.run(job, draws, noiseless, rows), true))
        })
    }

    fn settle(&self, job: &[u8], draws: Draws<'_>, noiseless: &[u64], out: &mut [u8]) -> Answer {
        self.drawing((job, draws, noiseless), |job, draws, noiseless| {
            self.writing(out, |out| self.calls.settle(job, draws, noiseless, out))
        })
    }

    fn run_shared(&self, job: &[u8], draws: Draws<'_>, noiseless: &[u64], rows: Rows<'_>, share: Share<'_>) -> Answer {
        self.drawing((job, draws, noiseless), |job, draws, noiseless| {
            self.running(rows, |rows| {
                self.sharing(share, |share| (self.calls.run_shared(job, draws, noiseless, rows, share), true))
            })
        })
    }

    fn settle_shared(
        &self,
        job: &[u8],
        draws: Draws<'_>,
        noiseless: &[u64],
        share: Share<'_>,
        out: &mut [u8],
    ) -> Answer {
        self.drawing((job, draws, noiseless), |job, draws, noiseless| {
            self.sharing(share, |share| {
                self.writing(out, |out| self.calls.settle_shared(job, draws, noiseless, share, out))
            })
        })
    }

    fn walk(&self, job: &[u8], shot: u64, set: &[u64]) -> Answer {
        self.call(|| {
            let (job, set) = (self.read(job), self.read(set));
            (self.calls.walk(job.list(), shot, set.list()), job.stays() & set.stays())
        })
    }

    fn annotate(&self, job: &[u8], p: u64, out: &mut [u8]) -> Answer {
        self.call(|| {
            let job = self.read(job);
            let (answer, stays) = self.writing(out, |out| self.calls.annotate(job.list(), p, out));
            (answer, stays & job.stays())
        })
    }

    fn locations(&self, job: &[u8]) -> Answer {
        self.only_read(job, |job| self.calls.locations(job))
    }

    fn correlation(&self, job: &[u8]) -> Answer {
        self.only_read(job, |job| self.calls.correlation(job))
    }

    fn fault_table(&self, job: &[u8], groups: &[u64], out: &mut [u8]) -> Answer {
        self.call(|| {
            let (job, groups) = (self.read(job), self.read(groups));
            let (answer, stays) = self.writing(out, |out| self.calls.fault_table(job.list(), groups.list(), out));
            (answer, stays & job.stays() & groups.stays())
        })
    }

    fn by_shot(&self, outcomes: u64, shots: u64, deltas: &[u64], rows: &mut [u64]) -> Answer {
        self.turning(deltas, rows, |deltas, rows| self.calls.by_shot(outcomes, shots, deltas, rows))
    }

    fn by_outcome(&self, outcomes: u64, shots: u64, rows: &[u64], deltas: &mut [u64]) -> Answer {
        self.turning(rows, deltas, |rows, deltas| self.calls.by_outcome(outcomes, shots, rows, deltas))
    }

    fn fill(&self, seed: u64, words: &mut [u64]) -> Answer {
        self.call(|| self.writing(words, |words| self.calls.fill(seed, words)))
    }

    fn make(&self, asked: Asked, out: &mut [u8]) -> Answer {
        self.call(|| self.writing(out, |out| self.calls.make(asked, out)))
    }

    fn print(&self, input: &[u8]) -> Option<Vec<u8>> {
        self.calls.print(input)
    }
}
