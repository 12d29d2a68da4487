//! Deltas by shot, in the forms that decoders read.

use kundatrezo::Shots;

/// A line for each shot, a digit for each outcome, outcome 0 first.
pub fn text(shots: &Shots) -> Vec<u8> {
    let mut out = Vec::new();
    write_digits(shots.words(), shots.shots(), shots.outcomes(), &mut out);
    out
}

/// For each shot ceil(outcomes / 8) bytes: eight outcomes to a byte, the lowest first.
pub fn packed(shots: &Shots) -> Vec<u8> {
    let mut out = Vec::new();
    write_packed(shots.words(), shots.shots(), shots.outcomes(), &mut out);
    out
}

/// Rows by shot as lines of digits.
pub fn write_digits(rows: &[u64], shots: usize, outcomes: usize, out: &mut Vec<u8>) {
    let words = outcomes.div_ceil(64);
    for shot in 0..shots {
        for (place, word) in rows[shot * words..][..words].iter().enumerate() {
            let digits = (outcomes - 64 * place).min(64);
            out.extend((0..digits).map(|bit| b'0' + u8::from(word >> bit & 1 == 1)));
        }
        out.push(b'\n');
    }
}

/// Rows by shot as packed bytes.
pub fn write_packed(rows: &[u64], shots: usize, outcomes: usize, out: &mut Vec<u8>) {
    let words = outcomes.div_ceil(64);
    for shot in 0..shots {
        for (place, word) in rows[shot * words..][..words].iter().enumerate() {
            let bytes = (outcomes - 64 * place).div_ceil(8).min(8);
            out.extend_from_slice(&word.to_le_bytes()[..bytes]);
        }
    }
}

#[cfg(test)]
mod tests {
    use super::{packed, text};
    use kundatrezo::Shots;

    #[test]
    fn outcomes_past_a_byte_and_a_word() {
        // outcomes 0, 9 and 64 differ in shot 1
        let deltas: Vec<u64> = (0..65).map(|id| if [0, 9, 64].contains(&id) { 0b10 } else { 0 }).collect();
        let shots = Shots::new(65, 2, &deltas).expect("counts of a header");
        let digits = String::from_utf8(text(&shots)).expect("digits");
        let digits: Vec<&str> = digits.lines().collect();
        assert_eq!(digits[0], "0".repeat(65));
        assert_eq!(digits[1], format!("1{}1{}1", "0".repeat(8), "0".repeat(54)));
        assert_eq!(packed(&shots), [[0; 9], [1, 2, 0, 0, 0, 0, 0, 0, 1]].concat());
    }
}
