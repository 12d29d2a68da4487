//! Which known name a mistyped one may stand for.

/// The known name that is nearest to a mistyped one, if one is near: the only one that begins with it, or else the one with the fewest changes, at most
/// a third of its letters; the first of several.
pub fn nearest<'a>(typed: &str, known: impl IntoIterator<Item = &'a str>) -> Option<&'a str> {
    let known: Vec<&str> = known.into_iter().collect();
    let begun: Vec<&str> = known.iter().copied().filter(|name| name.starts_with(typed)).collect();
    if let ([only], false) = (begun.as_slice(), typed.trim_start_matches('-').is_empty()) {
        return Some(only);
    }
    let near = known.into_iter().map(|name| (distance(typed, name), name));
    let near = near.filter(|(changes, name)| 3 * changes <= letters(name));
    near.min_by_key(|(changes, _)| *changes).map(|(_, name)| name)
}

/// The letters of a name, without the hyphens of an option.
fn letters(name: &str) -> usize {
    name.trim_start_matches('-').len()
}

/// The least number of changes that make one text of another: a letter more, less or another, or two neighbours swapped.
fn distance(one: &str, other: &str) -> usize {
    let (one, other): (Vec<char>, Vec<char>) = (one.chars().collect(), other.chars().collect());
    let mut rows: Vec<Vec<usize>> = vec![(0..=other.len()).collect()];
    for (i, letter) in one.iter().enumerate() {
        let mut row = vec![i + 1];
        for (j, expected) in other.iter().enumerate() {
            let changed = rows[i][j] + usize::from(letter != expected);
            let is_swap = i > 0 && j > 0 && one[i - 1] == *expected && other[j - 1] == *letter;
            let swapped = if is_swap { rows[i - 1][j - 1] + 1 } else { usize::MAX };
            row.push(changed.min(rows[i][j + 1] + 1).min(row[j] + 1).min(swapped));
        }
        rows.push(row);
    }
    rows[one.len()][other.len()]
}

#[cfg(test)]
mod tests {
    use super::*;

    #[test]
    fn distances_count_changes() {
        let cases = [("", "", 0), ("", "run", 3), ("run", "rnu", 1), ("sample", "smaple", 1), ("kitten", "sitting", 3)];
        for (one, other, changes) in cases {
            assert_eq!((distance(one, other), distance(other, one)), (changes, changes), "{one} {other}");
        }
    }

    #[test]
    fn the_nearest_name_is_near() {
        let names = ["sample", "settle", "split", "run", "--seed", "--second", "--set"];
        let cases = [
            ("smaple", Some("sample")),
            ("samp", Some("sample")),
            ("settel", Some("settle")),
            ("s", None),
            ("rn", Some("run")),
            ("simulate", None),
            ("--sede", Some("--seed")),
            ("--sec", Some("--second")),
            ("--se", Some("--set")),
            ("--", None),
            ("", None),
        ];
        for (typed, name) in cases {
            assert_eq!(nearest(typed, names), name, "{typed}");
        }
    }
}
