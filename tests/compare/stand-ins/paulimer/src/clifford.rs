//! Clifford unitaries as tables of images, phases dropped.

use crate::pauli::Pauli;
use binar::Bitwise;

/// A Clifford by the images of its generators.
///
/// Row r is the image of X on place r for r below k, of Z on place r - k from there on; bit c of a row is the X part of place c for c below k,
/// the Z part of place c - k from there on. This is document 01's order.
#[derive(Debug, Clone, PartialEq, Eq)]
pub struct CliffordUnitary {
    images: Vec<ImageView>,
}

/// What a Clifford can be asked.
pub trait Clifford {
    /// On how many qubits it acts.
    fn num_qubits(&self) -> usize;
}

/// The images of generators.
pub trait PreimageViews {
    /// An image.
    type View: Pauli;

    /// The image of X on a place.
    fn x_image_view_up_to_phase(&self, place: usize) -> &Self::View;

    /// The image of Z on a place.
    fn z_image_view_up_to_phase(&self, place: usize) -> &Self::View;
}

/// A few bits in a word.
#[derive(Debug, Clone, Copy, PartialEq, Eq)]
pub struct Bits(u32);

/// The image of a generator.
#[derive(Debug, Clone, Copy, PartialEq, Eq)]
pub struct ImageView {
    x_bits: Bits,
    z_bits: Bits,
}

impl CliffordUnitary {
    /// The Clifford on `qubits` places whose rows of 2k bits stand in `rows`.
    #[must_use]
    pub fn from_rows(qubits: usize, rows: impl IntoIterator<Item = u32>) -> Self {
        let images: Vec<_> = rows
            .into_iter()
            .map(|row| ImageView { x_bits: Bits(row & ((1 << qubits) - 1)), z_bits: Bits(row >> qubits) })
            .collect();
        assert_eq!(images.len(), 2 * qubits, "a row for each generator");
        Self { images }
    }
}

impl Clifford for CliffordUnitary {
    fn num_qubits(&self) -> usize {
        self.images.len() / 2
    }
}

impl PreimageViews for CliffordUnitary {
    type View = ImageView;

    fn x_image_view_up_to_phase(&self, place: usize) -> &ImageView {
        &self.images[place]
    }

    fn z_image_view_up_to_phase(&self, place: usize) -> &ImageView {
        &self.images[self.num_qubits() + place]
    }
}

impl Pauli for ImageView {
    type Bits = Bits;

    fn x_bits(&self) -> &Bits {
        &self.x_bits
    }

    fn z_bits(&self) -> &Bits {
        &self.z_bits
    }
}

impl Bitwise for Bits {
    #[inline]
    fn index(&self, index: usize) -> bool {
        self.0 >> index & 1 == 1
    }

    fn support(&self) -> impl Iterator<Item = usize> {
        (0..u32::BITS as usize).filter(|&bit| self.index(bit))
    }
}
