//! AV2 blocks, chroma pairs and lossless 4x4 steps that can be taken back, by an archive whose every call is proved to meet its
//! definition.
//!
//! Every call answers every input: `Ok(())`, or a [`Refusal`] with a number, the slice concerned and a place. After a refusal
//! every slice that was lent holds what it held. Nothing panics, no sum wraps, nothing is read past an end.
//!
//! ```
//! use panel::{inv_txfm_add, tx_size::TX_4X4, txtp, Tx1d, TxClass};
//!
//! let dct = txtp(Tx1d::Dct, Tx1d::Dct, TxClass::TwoD);
//! let mut coeff = [0; 16];
//! coeff[0] = 15;
//! let mut picture = [100; 16];
//! inv_txfm_add(&mut picture, 4, &coeff, dct, TX_4X4, 8)?;
//! assert_eq!(picture, [101; 16]);
//!
//! coeff[0] = 32_768;
//! let refusal = inv_txfm_add(&mut picture, 4, &coeff, dct, TX_4X4, 8).unwrap_err();
//! assert_eq!((refusal.number, refusal.slice, refusal.place), (7, 1, 0));
//! assert_eq!(
//!     refusal.to_string(),
//!     "A coefficient, residual or level is out of range. \
//!      It is the buffer of coefficients, levels or residuals that is read. Place 0."
//! );
//! assert_eq!(picture, [101; 16]);
//! # Ok::<(), panel::Refusal>(())
//! ```
//!
//! # Names
//!
//! Calls, sizes and kinds have the names of the Rust that the archive is a port of: [`inv_txfm_add`], [`cctx`], [`fwht4x4`],
//! [`tx_size`], [`Tx1d`], [`txtp`]. Three things differ from it: a call returns a `Result` in place of a panic, a stride is a
//! `usize` and a depth a `u32`, and a prediction is a lent slice in place of a closure.
//!
//! # Slices
//!
//! The archive asks that the slices of one call don't overlap. Rust's borrows see to it: a slice that a call writes is a
//! `&mut`, so no other argument can reach its memory. Two slices that are only read may be one.
//!
//! # The archive
//!
//! `build.rs` links `libpanel.a` from the folder that `PANEL_LIB_DIR` names, else from `target/staticlib` of the repository,
//! where `tools/archive` puts it. It is x86-64 System V code. The crate itself needs neither `std` nor `alloc`.
#![no_std]
#![warn(missing_docs)]

mod calls;
mod history;
mod kinds;
mod refusal;

pub use calls::*;
pub use history::{history_index, Area, History, Step, Steps, HISTORY_LEVELS, HISTORY_STEPS, LONGEST_HISTORY};
pub use kinds::{tx_size, txtp, Tx1d, TxClass};
pub use refusal::{refusal_words, slice_words, Refusal};
