//! The smallest form of an input that still shows a difference, as far as some seconds lead.

use reference::vectors::Input;
use std::time::{Duration, Instant};

/// How long is tried.
const TIME: Duration = Duration::from_secs(5);

/// Into how many runs a list is divided at most: dropping a long list's items one by one would take too long.
const MOST_RUNS: usize = 512;

/// A lent list of an input.
type List = fn(&mut Input) -> &mut Vec<u64>;

const LISTS: [List; 13] = [
    |input| &mut input.set,
    |input| &mut input.groups,
    |input| &mut input.shares,
    |input| &mut input.marks,
    |input| &mut input.main,
    |input| &mut input.second,
    |input| &mut input.noiseless,
    |input| &mut input.frames_x,
    |input| &mut input.frames_z,
    |input| &mut input.deltas,
    |input| &mut input.totals,
    |input| &mut input.rows,
    |input| &mut input.words,
];

/// Drop lines, bytes and lent words as long as `differs` holds.
pub fn minimised(input: &Input, differs: impl Fn(&Input) -> bool) -> Input {
    let mut search = Search { least: input.clone(), differs, end: Instant::now() + TIME };
    loop {
        let before = search.least.clone();
        search.drop_lines();
        for list in LISTS {
            search.drop_items(list);
            search.zero_words(list);
        }
        search.drop_items(|input| &mut input.job);
        if search.least == before || search.is_over() {
            return search.least;
        }
    }
}

struct Search<Differs> {
    least: Input,
    differs: Differs,
    end: Instant,
}

impl<Differs: Fn(&Input) -> bool> Search<Differs> {
    fn is_over(&self) -> bool {
        Instant::now() > self.end
    }

    /// Take a change over if the difference stays.
    fn attempt(&mut self, change: impl FnOnce(&mut Input)) -> bool {
        let mut changed = self.least.clone();
        change(&mut changed);
        let stays = !self.is_over() && (self.differs)(&changed);
        if stays {
            self.least = changed;
        }
        stays
    }

    fn drop_lines(&mut self) {
        let lines = self.least.job.split_inclusive(|&byte| byte == b'\n');
        let lines: Vec<Vec<u8>> = lines.map(<[u8]>::to_vec).collect();
        drop_runs(lines, |left| self.attempt(|input| input.job = left.concat()));
    }

    fn drop_items<T: Clone>(&mut self, list: impl Fn(&mut Input) -> &mut Vec<T>) {
        let items = list(&mut self.least).clone();
        drop_runs(items, |left| self.attempt(|input| *list(input) = left.to_vec()));
    }

    fn zero_words(&mut self, list: List) {
        for place in 0..list(&mut self.least).len().min(MOST_RUNS) {
            if list(&mut self.least)[place] != 0 {
                self.attempt(|input| list(input)[place] = 0);
            }
        }
    }
}

/// Drop runs of items, long ones first, wherever `stays` accepts what is left.
fn drop_runs<T: Clone>(mut items: Vec<T>, mut stays: impl FnMut(&[T]) -> bool) {
    let mut run = items.len();
    while run > 0 && items.len() / run <= MOST_RUNS {
        let mut place = 0;
        while place < items.len() {
            let mut left = items.clone();
            left.drain(place..(place + run).min(items.len()));
            if stays(&left) {
                items = left;
            } else {
                place += run;
            }
        }
        run /= 2;
    }
}

#[cfg(test)]
mod tests {
    use super::minimised;
    use reference::vectors::Input;

    #[test]
    fn only_what_shows_the_difference_is_left() {
        let input = Input {
            job: b"one\ntwo\nthree\nfour\n".to_vec(),
            main: (0..50).collect(),
            set: vec![4, 5, 6],
            ..Input::default()
        };
        let least =
            minimised(&input, |input| input.job.windows(2).any(|bytes| bytes == b"hr") && input.main.contains(&17));
        assert_eq!((least.job.as_slice(), least.main, least.set), (&b"hr"[..], vec![17], vec![]));
    }
}
