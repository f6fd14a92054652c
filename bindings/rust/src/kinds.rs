//! Sizes and kinds, under the names of the Rust.

/// The kinds of a one-dimensional transform. Length 4 has the first four; 8 and 16 have the first six; 32 has the first two; 64
/// has the first. `Wht` has no kernel: a call refuses it with 4.
#[derive(Clone, Copy, Debug, PartialEq, Eq, Hash)]
pub enum Tx1d {
    /// The cosine transform.
    Dct = 0,
    /// A factor.
    Identity = 1,
    /// The asymmetric sine transform.
    Adst = 2,
    /// The same, flipped.
    FlipAdst = 3,
    /// The data-driven transform.
    Ddt = 4,
    /// The same, flipped.
    FlipDdt = 5,
    /// The Walsh-Hadamard transform.
    Wht = 6,
}

/// The class of a transform type. No call reads it.
#[derive(Clone, Copy, Debug, PartialEq, Eq, Hash)]
pub enum TxClass {
    /// Two dimensions.
    TwoD = 0,
    /// Two dimensions, inverse.
    TwoDInv = 1,
    /// Horizontal.
    H = 2,
    /// Vertical.
    V = 3,
}

/// The type number of a horizontal kind, a vertical kind and a class, for the argument `txtp` of the pixel calls.
///
/// ```
/// use panel::{txtp, Tx1d, TxClass};
///
/// assert_eq!(txtp(Tx1d::FlipAdst, Tx1d::Identity, TxClass::TwoD), 35);
/// ```
pub const fn txtp(hor: Tx1d, ver: Tx1d, class: TxClass) -> usize {
    (hor as usize) | ((class as usize) << 3) | ((ver as usize) << 5)
}

/// The size numbers, width by height, for the argument `tx` of the pixel calls.
///
/// ```
/// use panel::tx_size;
///
/// assert_eq!((tx_size::TX_4X4, tx_size::RTX_64X4), (0, 24));
/// ```
#[allow(missing_docs)]
pub mod tx_size {
    pub const TX_4X4: usize = 0;
    pub const TX_8X8: usize = 1;
    pub const TX_16X16: usize = 2;
    pub const TX_32X32: usize = 3;
    pub const TX_64X64: usize = 4;
    pub const RTX_4X8: usize = 5;
    pub const RTX_8X4: usize = 6;
    pub const RTX_8X16: usize = 7;
    pub const RTX_16X8: usize = 8;
    pub const RTX_16X32: usize = 9;
    pub const RTX_32X16: usize = 10;
    pub const RTX_32X64: usize = 11;
    pub const RTX_64X32: usize = 12;
    pub const RTX_4X16: usize = 13;
    pub const RTX_16X4: usize = 14;
    pub const RTX_8X32: usize = 15;
    pub const RTX_32X8: usize = 16;
    pub const RTX_16X64: usize = 17;
    pub const RTX_64X16: usize = 18;
    pub const RTX_4X32: usize = 19;
    pub const RTX_32X4: usize = 20;
    pub const RTX_8X64: usize = 21;
    pub const RTX_64X8: usize = 22;
    pub const RTX_4X64: usize = 23;
    pub const RTX_64X4: usize = 24;
}
