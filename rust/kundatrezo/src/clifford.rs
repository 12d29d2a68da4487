//! Clifford lines.

use crate::{Circuit, Header, Instruction, MAX_QUBITS, Number, check};

/// Most qubits of a Clifford line.
pub const MAX_CLIFFORD_QUBITS: usize = 8;

/// The line `op=c`, without its line end, of the Clifford on `qubits` that takes X on the i-th of them to `x_images[i]`, and Z on it to `z_images[i]`.
///
/// An image is a Pauli up to its sign, a letter `I`, `X`, `Y` or `Z` for each of the qubits, in their order.
///
/// # Errors
///
/// The number by which a job of [`MAX_QUBITS`](crate::MAX_QUBITS) qubits with this line is refused: among them [`Number::OPERANDS`] for a repeated qubit or
/// more than [`MAX_CLIFFORD_QUBITS`], and [`Number::CLIFFORD`] for images that do not commute and anticommute as the X and Z that they are images of.
/// [`Number::FORM`] where there is not one image for each qubit with one letter for each.
///
/// ```
/// use kundatrezo::{Number, clifford_line};
///
/// // ControlledX
/// assert_eq!(clifford_line(&[5, 2], &["XX", "IX"], &["ZI", "ZZ"]), Ok("op=c q=5,2 t=000000000000c423".into()));
///
/// // An encoder of the five-qubit code: Z on qubits 1 to 4 goes to the stabilizers, X and Z on qubit 0 to the logical ones.
/// let x = ["XXXXX", "IIIYY", "YIIYI", "IYIYI", "IIYYI"];
/// let z = ["ZZZZZ", "XZZXI", "IXZZX", "XIXZZ", "ZXIXZ"];
/// let encoder = clifford_line(&[0, 1, 2, 3, 4], &x, &z)?;
/// assert_eq!(encoder, "op=c q=0,1,2,3,4 t=9f818c52929c601f,00000008ab05648c");
///
/// assert_eq!(clifford_line(&[0], &["X"], &["X"]), Err(Number::CLIFFORD));
/// # Ok::<(), Number>(())
/// ```
pub fn clifford_line(qubits: &[usize], x_images: &[&str], z_images: &[&str]) -> Result<String, Number> {
    let images = || x_images.iter().chain(z_images);
    let is_square = images().all(|image| image.chars().count() == qubits.len());
    if x_images.len() != qubits.len() || z_images.len() != qubits.len() || !is_square {
        return Err(Number::FORM);
    }
    let rows: Option<Vec<Vec<bool>>> = images().map(|image| row(image)).collect();
    let bits = rows.ok_or(Number::FORM)?.concat();
    let clifford = Instruction::Clifford { qubits: qubits.to_vec(), table: bits.chunks(64).map(word).collect() };
    let line = clifford.to_string();
    let header = Header { edition: None, qubits: MAX_QUBITS, outcomes: 0, shots: 1 };
    check(&Circuit { header, instructions: vec![clifford] }.to_job()).map_err(|refusal| refusal.number)?;
    Ok(line)
}

/// A row of a table: on which qubits an image has an X part, then on which it has a Z part.
fn row(image: &str) -> Option<Vec<bool>> {
    let parts: Option<Vec<(bool, bool)>> = image
        .chars()
        .map(|letter| match letter {
            'I' => Some((false, false)),
            'X' => Some((true, false)),
            'Y' => Some((true, true)),
            'Z' => Some((false, true)),
            _ => None,
        })
        .collect();
    let (x, z): (Vec<bool>, Vec<bool>) = parts?.into_iter().unzip();
    Some([x, z].concat())
}

/// The word of up to 64 bits, the lowest first.
fn word(bits: &[bool]) -> u64 {
    bits.iter().rev().fold(0, |word, bit| word << 1 | u64::from(*bit))
}
