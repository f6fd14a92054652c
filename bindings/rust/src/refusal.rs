//! What a call answers where it refuses, and the words for it: those of include/panel_words.h, which tests/header.rs holds
//! against these.

use core::fmt;

/// A refusal: every slice that was lent to the call holds what it held.
///
/// | number | given exactly when | slice | place |
/// |---|---|---|---|
/// | 1 | depth outside 8 to 12 (byte planes: other than 8; AV1: bits outside 16 to 20) | 0 | 0 |
/// | 2 | size number above 24 (AV1: a length other than 4, 8, 16, 32, 64) | 0 | 0 |
/// | 3 | type number above 255 | 0 | 0 |
/// | 4 | a kind that its length doesn't have | 0 | 0 horizontal, 1 vertical |
/// | 5 | stride below the block's width or above 65,536; visible width below 4 or above the stride; rows outside 4 to 65,536 | 0 | 0 |
/// | 6 | a buffer too short or of the wrong length, or a block that doesn't fit | the lowest that is short | 0 |
/// | 7 | a coefficient, residual or level out of range | 1, of a chroma pair 4 or 5 | lowest index |
/// | 8 | a prediction or present sample outside 0 to 2^depth - 1 | 2 | lowest index |
/// | 9 | sine or cosine number outside -256 to 256 | 0 | 0 sine, 1 cosine |
/// | 10 | a lossless step or undo would leave the sample range | 2 | lowest index in the plane |
/// | 11 | byte planes: a size with a side of 64 | 0 | 0 |
/// | 12 | a history or index of the wrong length, a history out of range, a fold whose summed residual is above 2^depth - 1 in size | 0 | 0 |
/// | 13 | a withdrawal whose step doesn't remain or is overlapped by a later one; an undo when none remains | 0 | its number; 0 |
/// | 14 | a step when 4,096 remain, or its number would pass 4,294,967,295 | 0 | 0 |
/// | 15 | AV1: an input or intermediate that doesn't fit its bit count | 0 | number of the store, inputs first |
///
/// Slices: 0 none; 1 coefficients, levels or residuals that are read; 2 prediction or plane; 3 output; 4 first chroma; 5 second
/// chroma.
///
/// ```
/// let refusal = panel::fwht4x4(&[0; 16], &mut [0; 15]).unwrap_err();
/// assert_eq!(refusal, panel::Refusal { number: 6, slice: 3, place: 0 });
/// assert_eq!(refusal.words(), "A buffer has the wrong length, or the block does not fit.");
/// assert_eq!(refusal.slice_words(), "It is the buffer for the output.");
/// ```
#[derive(Clone, Copy, Debug, PartialEq, Eq, Hash)]
pub struct Refusal {
    /// What is wrong, 1 to 15.
    pub number: u32,
    /// The slice concerned, 0 for none.
    pub slice: u32,
    /// Where in it.
    pub place: usize,
}

const REFUSALS: [&str; 16] = [
    "Done.",
    "The bit depth or bit count is not one that this call takes.",
    "There is no such block size or transform length.",
    "There is no such transform type.",
    "A side of this length does not have this kind of transform.",
    "The stride, the visible width or the row count is out of range.",
    "A buffer has the wrong length, or the block does not fit.",
    "A coefficient, residual or level is out of range.",
    "A sample of the prediction or of the picture is out of range.",
    "The sine or the cosine is out of range.",
    "The step would take a sample out of range.",
    "This panel has no blocks with a side of 64.",
    "The history or its index has the wrong length or wrong contents.",
    "This step can't be taken back: it is not in the history, or a later step overlaps it.",
    "The history has no room for another step.",
    "A number on the way does not fit the bit count.",
];

const SLICES: [&str; 6] = [
    "No buffer is concerned.",
    "It is the buffer of coefficients, levels or residuals that is read.",
    "It is the buffer of the prediction or of the picture.",
    "It is the buffer for the output.",
    "It is the buffer of the first chroma numbers.",
    "It is the buffer of the second chroma numbers.",
];

/// A sentence for the number of an answer; 0 is Done.
///
/// ```
/// assert_eq!(panel::refusal_words(9), "The sine or the cosine is out of range.");
/// ```
pub fn refusal_words(number: u32) -> &'static str {
    REFUSALS.get(number as usize).copied().unwrap_or("There is no answer with this number.")
}

/// A sentence for the slice of an answer: the buffer that it is about.
///
/// ```
/// assert_eq!(panel::slice_words(4), "It is the buffer of the first chroma numbers.");
/// ```
pub fn slice_words(slice: u32) -> &'static str {
    SLICES.get(slice as usize).copied().unwrap_or("There is no buffer with this number.")
}

impl Refusal {
    /// A sentence for the number.
    pub fn words(&self) -> &'static str {
        refusal_words(self.number)
    }

    /// A sentence for the slice.
    pub fn slice_words(&self) -> &'static str {
        slice_words(self.slice)
    }
}

/// The sentence for the number, the one for the slice, and the place.
impl fmt::Display for Refusal {
    fn fmt(&self, f: &mut fmt::Formatter<'_>) -> fmt::Result {
        write!(f, "{} {} Place {}.", self.words(), self.slice_words(), self.place)
    }
}

#[cfg(panel_core_error)]
impl core::error::Error for Refusal {}
