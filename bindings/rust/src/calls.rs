//! The calls of include/panel.h, in one table. A new call is its words, its name, its symbol and its arguments; tests/header.rs
//! holds the table against the header, argument by argument.

use crate::refusal::Refusal;

/// An answer, as it comes back in two registers.
#[repr(C)]
struct Answer {
    number: u32,
    slice: u32,
    place: usize,
}

impl Answer {
    fn result(self) -> Result<(), Refusal> {
        match self.number {
            0 => Ok(()),
            number => Err(Refusal { number, slice: self.slice, place: self.place }),
        }
    }
}

/// Each entry becomes a safe function under its name, over the archive's symbol.
macro_rules! calls {
    ($($(#[$words:meta])* $name:ident = $symbol:ident($($arguments:tt)*);)*) => {
        $(call! { {$(#[$words])*} $name $symbol {} {} {} $($arguments)*, })*

        /// The symbol and the arguments of every call, for the test that holds them against the header.
        #[doc(hidden)]
        pub const CALLS: &[(&str, &str)] = &[$((stringify!($symbol), stringify!($($arguments)*))),*];
    };
}

/// Sorts the arguments one by one: as the function takes them, as the symbol is declared (a slice is a pointer and a count of
/// numbers), as they are passed.
macro_rules! call {
    ({$($words:tt)*} $name:ident $symbol:ident {$($taken:tt)*} {$($declared:tt)*} {$($passed:tt)*}
     $slice:ident: &mut [$number:ty], $($rest:tt)*) => {
        call! { {$($words)*} $name $symbol
            {$($taken)* $slice: &mut [$number],} {$($declared)* _: *mut $number, _: usize,}
            {$($passed)* $slice.as_mut_ptr(), $slice.len(),} $($rest)* }
    };
    ({$($words:tt)*} $name:ident $symbol:ident {$($taken:tt)*} {$($declared:tt)*} {$($passed:tt)*}
     $slice:ident: &[$number:ty], $($rest:tt)*) => {
        call! { {$($words)*} $name $symbol
            {$($taken)* $slice: &[$number],} {$($declared)* _: *const $number, _: usize,}
            {$($passed)* $slice.as_ptr(), $slice.len(),} $($rest)* }
    };
    ({$($words:tt)*} $name:ident $symbol:ident {$($taken:tt)*} {$($declared:tt)*} {$($passed:tt)*}
     $number:ident: $type:ty, $($rest:tt)*) => {
        call! { {$($words)*} $name $symbol
            {$($taken)* $number: $type,} {$($declared)* _: $type,} {$($passed)* $number,} $($rest)* }
    };
    ({$($words:tt)*} $name:ident $symbol:ident {$($taken:tt)*} {$($declared:tt)*} {$($passed:tt)*}) => {
        $($words)*
        #[allow(clippy::too_many_arguments)]
        pub fn $name($($taken)*) -> Result<(), Refusal> {
            extern "C" {
                fn $symbol($($declared)*) -> Answer;
            }
            // SAFETY: the symbol takes any numbers and any slices that don't overlap, reads and writes nothing but these slices
            // within their counts, and keeps no pointer. A slice that is written is borrowed as mutable, so no other overlaps
            // it. A float or an integer may have any bits.
            unsafe { $symbol($($passed)*) }.result()
        }
    };
}

/// The words of a float call: which form it is, its name, and the number of row 1, column 0 of a block of 4 by 8.
macro_rules! recon {
    ($form:literal, $name:literal, $number:literal) => {
        concat!(
            "Prediction plus residual as `f32`, row after row, w apart. ", $form, "\n\n",
            "`coeff` has at least sw * sh numbers, `pred` and `out` at least w * h, where w by h is the size `tx` and sw, sh are \
             these sides cut to 32; more are neither read nor written. `txtp` is a type number ([`txtp`](crate::txtp)), `bd` the \
             depth, 8 to 12.\n\n",
            "# Errors\n\n1, 2, 3, 4, 6, 7 or 8 of [`Refusal`]; then `out` is as it was.\n\n",
            "# Example\n\n```\nuse panel::{tx_size::RTX_4X8, txtp, Tx1d, TxClass};\n\n",
            "let identity = txtp(Tx1d::Identity, Tx1d::Identity, TxClass::TwoD);\n",
            "let mut coeff = [0; 32];\ncoeff[", $number, "] = 256; // row 1, column 0\n",
            "let mut out = [0.0; 32];\n",
            "panel::", $name, "(&mut out, &coeff, identity, RTX_4X8, 8, &[100; 32])?;\n",
            "assert_eq!(out[..8], [100.0, 100.0, 100.0, 100.0, 132.0, 100.0, 100.0, 100.0]);\n",
            "# Ok::<(), panel::Refusal>(())\n```"
        )
    };
}

/// The words of an add call: as for a float call. A call on bytes has a depth and refusals of its own.
macro_rules! add {
    ($form:literal, $name:literal, $number:literal) => {
        add!($form, "8 to 12", "1 to 8", $name, $number)
    };
    (bytes: $form:literal, $name:literal, $number:literal) => {
        add!($form, "8; no side is 64", "1 to 7 or 11", $name, $number)
    };
    ($form:literal, $depth:literal, $errors:literal, $name:literal, $number:literal) => {
        concat!(
            "The residual of a block added into a picture at its stride. ", $form, "\n\n",
            "`coeff` has at least sw * sh numbers and `dst` at least (h - 1) * stride + w samples, where w by h is the size `tx` \
             and sw, sh are these sides cut to 32; more are neither read nor written. `txtp` is a type number \
             ([`txtp`](crate::txtp)), `bd` the depth, ", $depth, ".\n\n",
            "# Errors\n\n", $errors, " of [`Refusal`]; then `dst` is as it was.\n\n",
            "# Example\n\n```\nuse panel::{tx_size::RTX_4X8, txtp, Tx1d, TxClass};\n\n",
            "let identity = txtp(Tx1d::Identity, Tx1d::Identity, TxClass::TwoD);\n",
            "let mut coeff = [0; 32];\ncoeff[", $number, "] = 256; // row 1, column 0\n",
            "let mut picture = [100; 32];\n",
            "panel::", $name, "(&mut picture, 4, &coeff, identity, RTX_4X8, 8)?;\n",
            "assert_eq!(picture[..8], [100, 100, 100, 100, 132, 100, 100, 100]);\n",
            "# Ok::<(), panel::Refusal>(())\n```"
        )
    };
}

/// The words of a lossless call: what it does, its name, and what sixteen samples of 100 become by the levels of sixteen ones.
macro_rules! lossless {
    ($what:literal, $errors:literal, $name:literal, $becomes:literal) => {
        concat!(
            $what, "\n\n",
            "The block is that at `row` and `column` of a plane with lines of `stride` samples, of which the first `width` are \
             visible; what lies past the width is neither read nor written. `level` has sixteen numbers, row by row. The \
             residuals are those of [`iwht4x4`].\n\n",
            "# Errors\n\n", $errors, " of [`Refusal`]; then the plane is as it was.\n\n",
            "# Example\n\n```\nlet mut level = [0; 16];\nlevel[0] = 4; // sixteen residuals of 1\n",
            "let mut plane = [100; 16];\n",
            "panel::", $name, "(8, &mut plane, 4, 4, 0, 0, &level)?;\n",
            "assert_eq!(plane, [", $becomes, "; 16]);\n",
            "# Ok::<(), panel::Refusal>(())\n```"
        )
    };
}

/// The words of a call on a history: what it does, its refusals, and its line of the example. [`crate::History`] has a method
/// for each.
macro_rules! kept {
    ($what:literal, $errors:literal, $line:literal) => {
        concat!(
            $what, "\n\n",
            "`steps` has exactly [`HISTORY_STEPS`](crate::HISTORY_STEPS) numbers, `levels` \
             [`HISTORY_LEVELS`](crate::HISTORY_LEVELS) and `index` [`history_index`](crate::history_index)`(width, rows)`; all \
             zero is the empty history. [`History`](crate::History) keeps the three together.\n\n",
            "# Errors\n\n", $errors, " of [`Refusal`]; then every slice is as it was.\n\n",
            "# Example\n\n```\nuse panel::{HISTORY_LEVELS, HISTORY_STEPS};\n\n",
            "let (mut steps, mut levels, mut index) = (vec![0; HISTORY_STEPS], vec![0; HISTORY_LEVELS], vec![0; 4]);\n",
            "let mut plane = [100; 64];\nlet mut level = [0; 16];\nlevel[0] = 4; // sixteen residuals of 1\n",
            "panel::history_step(8, &mut plane, 8, 8, 8, 0, 4, &level, &mut steps, &mut levels, &mut index)?;\n",
            "assert_eq!((plane[4], index[1]), (101, 1));\n",
            $line, "# Ok::<(), panel::Refusal>(())\n```"
        )
    };
}

calls! {
    // Prediction plus residual.
    #[doc = recon!("Coefficients in column order: row r, column x is number r + x * sh.", "inv_txfm_recon_f32", "1")]
    inv_txfm_recon_f32 = panel_inv_txfm_recon_f32(
        out: &mut [f32], coeff: &[i32], txtp: usize, tx: usize, bd: u32, pred: &[i32]);
    #[doc = recon!("Four lanes at a time; answers and numbers are those of [`inv_txfm_recon_f32`].",
        "inv_txfm_recon_f32_lanes", "1")]
    inv_txfm_recon_f32_lanes = panel_inv_txfm_recon_f32_lanes(
        out: &mut [f32], coeff: &[i32], txtp: usize, tx: usize, bd: u32, pred: &[i32]);
    #[doc = recon!("Eight lanes at a time; answers and numbers are those of [`inv_txfm_recon_f32`].",
        "inv_txfm_recon_f32_lanes8", "1")]
    inv_txfm_recon_f32_lanes8 = panel_inv_txfm_recon_f32_lanes8(
        out: &mut [f32], coeff: &[i32], txtp: usize, tx: usize, bd: u32, pred: &[i32]);
    #[doc = recon!("The fast form; answers and numbers are those of [`inv_txfm_recon_f32`].",
        "inv_txfm_recon_f32_fast", "1")]
    inv_txfm_recon_f32_fast = panel_inv_txfm_recon_f32_fast(
        out: &mut [f32], coeff: &[i32], txtp: usize, tx: usize, bd: u32, pred: &[i32]);
    #[doc = recon!("Coefficients in row order: row r, column x is number r * sw + x.", "inv_txfm_recon_f32_rows", "4")]
    inv_txfm_recon_f32_rows = panel_inv_txfm_recon_f32_rows(
        out: &mut [f32], coeff: &[i32], txtp: usize, tx: usize, bd: u32, pred: &[i32]);
    #[doc = recon!("Four lanes at a time; answers and numbers are those of [`inv_txfm_recon_f32_rows`].",
        "inv_txfm_recon_f32_rows_lanes", "4")]
    inv_txfm_recon_f32_rows_lanes = panel_inv_txfm_recon_f32_rows_lanes(
        out: &mut [f32], coeff: &[i32], txtp: usize, tx: usize, bd: u32, pred: &[i32]);
    #[doc = recon!("Eight lanes at a time; answers and numbers are those of [`inv_txfm_recon_f32_rows`].",
        "inv_txfm_recon_f32_rows_lanes8", "4")]
    inv_txfm_recon_f32_rows_lanes8 = panel_inv_txfm_recon_f32_rows_lanes8(
        out: &mut [f32], coeff: &[i32], txtp: usize, tx: usize, bd: u32, pred: &[i32]);
    #[doc = recon!("The fast form; answers and numbers are those of [`inv_txfm_recon_f32_rows`].",
        "inv_txfm_recon_f32_rows_fast", "4")]
    inv_txfm_recon_f32_rows_fast = panel_inv_txfm_recon_f32_rows_fast(
        out: &mut [f32], coeff: &[i32], txtp: usize, tx: usize, bd: u32, pred: &[i32]);
    #[doc = recon!("As the Rust: column order, and coefficients out of range are clamped; for comparison with it.",
        "inv_txfm_recon_f32_clamped", "1")]
    inv_txfm_recon_f32_clamped = panel_inv_txfm_recon_f32_clamped(
        out: &mut [f32], coeff: &[i32], txtp: usize, tx: usize, bd: u32, pred: &[i32]);
    #[doc = recon!("Four lanes at a time; answers and numbers are those of [`inv_txfm_recon_f32_clamped`].",
        "inv_txfm_recon_f32_clamped_lanes", "1")]
    inv_txfm_recon_f32_clamped_lanes = panel_inv_txfm_recon_f32_clamped_lanes(
        out: &mut [f32], coeff: &[i32], txtp: usize, tx: usize, bd: u32, pred: &[i32]);

    // The residual added into a picture.
    #[doc = add!("Coefficients in column order: row r, column x is number r + x * sh.", "inv_txfm_add", "1")]
    inv_txfm_add = panel_inv_txfm_add(dst: &mut [i32], stride: usize, coeff: &[i32], txtp: usize, tx: usize, bd: u32);
    #[doc = add!("Four lanes at a time; answers and samples are those of [`inv_txfm_add`].", "inv_txfm_add_lanes", "1")]
    inv_txfm_add_lanes = panel_inv_txfm_add_lanes(
        dst: &mut [i32], stride: usize, coeff: &[i32], txtp: usize, tx: usize, bd: u32);
    #[doc = add!("Eight lanes at a time; answers and samples are those of [`inv_txfm_add`].", "inv_txfm_add_lanes8", "1")]
    inv_txfm_add_lanes8 = panel_inv_txfm_add_lanes8(
        dst: &mut [i32], stride: usize, coeff: &[i32], txtp: usize, tx: usize, bd: u32);
    #[doc = add!("The fast form; answers and samples are those of [`inv_txfm_add`].", "inv_txfm_add_fast", "1")]
    inv_txfm_add_fast = panel_inv_txfm_add_fast(
        dst: &mut [i32], stride: usize, coeff: &[i32], txtp: usize, tx: usize, bd: u32);
    #[doc = add!("Coefficients in row order: row r, column x is number r * sw + x.", "inv_txfm_add_rows", "4")]
    inv_txfm_add_rows = panel_inv_txfm_add_rows(
        dst: &mut [i32], stride: usize, coeff: &[i32], txtp: usize, tx: usize, bd: u32);
    #[doc = add!("Four lanes at a time; answers and samples are those of [`inv_txfm_add_rows`].",
        "inv_txfm_add_rows_lanes", "4")]
    inv_txfm_add_rows_lanes = panel_inv_txfm_add_rows_lanes(
        dst: &mut [i32], stride: usize, coeff: &[i32], txtp: usize, tx: usize, bd: u32);
    #[doc = add!("Eight lanes at a time; answers and samples are those of [`inv_txfm_add_rows`].",
        "inv_txfm_add_rows_lanes8", "4")]
    inv_txfm_add_rows_lanes8 = panel_inv_txfm_add_rows_lanes8(
        dst: &mut [i32], stride: usize, coeff: &[i32], txtp: usize, tx: usize, bd: u32);
    #[doc = add!("The fast form; answers and samples are those of [`inv_txfm_add_rows`].",
        "inv_txfm_add_rows_fast", "4")]
    inv_txfm_add_rows_fast = panel_inv_txfm_add_rows_fast(
        dst: &mut [i32], stride: usize, coeff: &[i32], txtp: usize, tx: usize, bd: u32);
    #[doc = add!("As the Rust: column order, and coefficients out of range are clamped; for comparison with it.",
        "inv_txfm_add_clamped", "1")]
    inv_txfm_add_clamped = panel_inv_txfm_add_clamped(
        dst: &mut [i32], stride: usize, coeff: &[i32], txtp: usize, tx: usize, bd: u32);
    #[doc = add!("Four lanes at a time; answers and samples are those of [`inv_txfm_add_clamped`].",
        "inv_txfm_add_clamped_lanes", "1")]
    inv_txfm_add_clamped_lanes = panel_inv_txfm_add_clamped_lanes(
        dst: &mut [i32], stride: usize, coeff: &[i32], txtp: usize, tx: usize, bd: u32);

    // The same on bytes.
    #[doc = add!(bytes: "A plane of bytes. Column order; the bytes are the samples that [`inv_txfm_add`] leaves.",
        "inv_txfm_add_bytes", "1")]
    inv_txfm_add_bytes = panel_inv_txfm_add_bytes(
        dst: &mut [u8], stride: usize, coeff: &[i32], txtp: usize, tx: usize, bd: u32);
    #[doc = add!(bytes: "Four lanes at a time; answers and bytes are those of [`inv_txfm_add_bytes`].",
        "inv_txfm_add_bytes_lanes", "1")]
    inv_txfm_add_bytes_lanes = panel_inv_txfm_add_bytes_lanes(
        dst: &mut [u8], stride: usize, coeff: &[i32], txtp: usize, tx: usize, bd: u32);
    #[doc = add!(bytes: "The fast form; answers and bytes are those of [`inv_txfm_add_bytes`].",
        "inv_txfm_add_bytes_fast", "1")]
    inv_txfm_add_bytes_fast = panel_inv_txfm_add_bytes_fast(
        dst: &mut [u8], stride: usize, coeff: &[i32], txtp: usize, tx: usize, bd: u32);
    #[doc = add!(bytes: "A plane of bytes. Row order; the bytes are the samples that [`inv_txfm_add_rows`] leaves.",
        "inv_txfm_add_rows_bytes", "4")]
    inv_txfm_add_rows_bytes = panel_inv_txfm_add_rows_bytes(
        dst: &mut [u8], stride: usize, coeff: &[i32], txtp: usize, tx: usize, bd: u32);
    #[doc = add!(bytes: "Four lanes at a time; answers and bytes are those of [`inv_txfm_add_rows_bytes`].",
        "inv_txfm_add_rows_bytes_lanes", "4")]
    inv_txfm_add_rows_bytes_lanes = panel_inv_txfm_add_rows_bytes_lanes(
        dst: &mut [u8], stride: usize, coeff: &[i32], txtp: usize, tx: usize, bd: u32);
    #[doc = add!(bytes: "The fast form; answers and bytes are those of [`inv_txfm_add_rows_bytes`].",
        "inv_txfm_add_rows_bytes_fast", "4")]
    inv_txfm_add_rows_bytes_fast = panel_inv_txfm_add_rows_bytes_fast(
        dst: &mut [u8], stride: usize, coeff: &[i32], txtp: usize, tx: usize, bd: u32);

    /// Chroma pairs, turned in their places: u cos - v sin and u sin + v cos, over 256, halves away from zero.
    ///
    /// The two slices have one length, which may be 0. `sina` and `cosa` are -256 to 256.
    ///
    /// # Errors
    ///
    /// 1, 6, 7 or 9 of [`Refusal`]; then both slices are as they were.
    ///
    /// # Example
    ///
    /// ```
    /// let (mut u, mut v) = ([5], [7]);
    /// panel::cctx(&mut u, &mut v, 256, 0, 8)?; // a quarter turn
    /// assert_eq!((u, v), ([-7], [5]));
    /// # Ok::<(), panel::Refusal>(())
    /// ```
    cctx = panel_cctx(u: &mut [i32], v: &mut [i32], sina: i32, cosa: i32, bd: u32);

    /// The Walsh-Hadamard transform of sixteen residuals, each within 65,535.
    ///
    /// From a present block to a wanted one leads exactly one list of levels: the transform of their difference.
    ///
    /// # Errors
    ///
    /// 6 or 7 of [`Refusal`]; then `level` is as it was.
    ///
    /// # Example
    ///
    /// ```
    /// let mut level = [0; 16];
    /// panel::fwht4x4(&[1; 16], &mut level)?;
    /// assert_eq!(level, [4, 0, 0, 0, 0, 0, 0, 0, 0, 0, 0, 0, 0, 0, 0, 0]);
    /// # Ok::<(), panel::Refusal>(())
    /// ```
    fwht4x4 = panel_fwht4x4(resid: &[i32], level: &mut [i32]);

    /// The inverse of [`fwht4x4`]: the residuals of sixteen levels, each within 262,144.
    ///
    /// # Errors
    ///
    /// 6 or 7 of [`Refusal`]; then `resid` is as it was.
    ///
    /// # Example
    ///
    /// ```
    /// let mut resid = [0; 16];
    /// panel::iwht4x4(&[4, 0, 0, 0, 0, 0, 0, 0, 0, 0, 0, 0, 0, 0, 0, 0], &mut resid)?;
    /// assert_eq!(resid, [1; 16]);
    /// # Ok::<(), panel::Refusal>(())
    /// ```
    iwht4x4 = panel_iwht4x4(level: &[i32], resid: &mut [i32]);

    // Lossless steps.
    #[doc = lossless!("A lossless step: the samples of a 4x4 block gain the residuals of sixteen levels.", "1, 5, 6, 7, 8 or 10",
        "lossless_step", "101")]
    lossless_step = panel_lossless_step(
        depth: u32, plane: &mut [i32], stride: usize, width: usize, row: usize, column: usize, level: &[i32]);
    #[doc = lossless!("The undo of a lossless step, with the same arguments: the samples lose the residuals.",
        "1, 5, 6, 7, 8 or 10", "lossless_undo", "99")]
    lossless_undo = panel_lossless_undo(
        depth: u32, plane: &mut [i32], stride: usize, width: usize, row: usize, column: usize, level: &[i32]);
    #[doc = lossless!("A lossless step on a plane of bytes, depth 8; the bytes are the samples that [`lossless_step`] leaves.",
        "1, 5, 6, 7 or 10", "lossless_step_bytes", "101")]
    lossless_step_bytes = panel_lossless_step_bytes(
        depth: u32, plane: &mut [u8], stride: usize, width: usize, row: usize, column: usize, level: &[i32]);
    #[doc = lossless!("The undo of a lossless step on a plane of bytes, with the same arguments.", "1, 5, 6, 7 or 10",
        "lossless_undo_bytes", "99")]
    lossless_undo_bytes = panel_lossless_undo_bytes(
        depth: u32, plane: &mut [u8], stride: usize, width: usize, row: usize, column: usize, level: &[i32]);

    // Histories.
    #[doc = kept!("A lossless step, remembered in lent memory.", "1, 5, 6, 7, 8, 10, 12 or 14", "")]
    history_step = panel_history_step(
        depth: u32, plane: &mut [i32], stride: usize, width: usize, rows: usize, row: usize, column: usize, level: &[i32],
        steps: &mut [u32], levels: &mut [i32], index: &mut [u32]);
    #[doc = kept!("The newest remaining step, undone.", "5, 8, 10, 12 or 13",
        "panel::history_undo(&mut plane, 8, 8, 8, &mut steps, &mut levels, &mut index)?;\n\
         assert_eq!((plane[4], index[1]), (100, 0));\n")]
    history_undo = panel_history_undo(
        plane: &mut [i32], stride: usize, width: usize, rows: usize, steps: &mut [u32], levels: &mut [i32], index: &mut [u32]);
    #[doc = kept!("The remaining step with a number, undone, unless a later one shares a sample with it.", "5, 8, 10, 12 or 13",
        "panel::history_withdraw(&mut plane, 8, 8, 8, 1, &mut steps, &mut levels, &mut index)?;\n\
         assert_eq!((plane[4], index[1]), (100, 0));\n")]
    history_withdraw = panel_history_withdraw(
        plane: &mut [i32], stride: usize, width: usize, rows: usize, number: u32,
        steps: &mut [u32], levels: &mut [i32], index: &mut [u32]);
    #[doc = kept!("What [`history_withdraw`] would answer.", "5, 8, 10, 12 or 13",
        "panel::history_can_withdraw(&plane, 8, 8, 8, 1, &steps, &levels, &index)?;\n\
         assert_eq!(panel::history_can_withdraw(&plane, 8, 8, 8, 2, &steps, &levels, &index).unwrap_err().number, 13);\n")]
    history_can_withdraw = panel_history_can_withdraw(
        plane: &[i32], stride: usize, width: usize, rows: usize, number: u32, steps: &[u32], levels: &[i32], index: &[u32]);
    #[doc = kept!("The whole index, from the list of remaining steps.", "5 or 12",
        "index.fill(9);\n\
         panel::history_rebuild(&plane, 8, 8, 8, &steps, &levels, &mut index)?;\n\
         assert_eq!(index, [0, 1, 0, 0]);\n")]
    history_rebuild = panel_history_rebuild(
        plane: &[i32], stride: usize, width: usize, rows: usize, steps: &[u32], levels: &[i32], index: &mut [u32]);
    #[doc = kept!("Pairs of remaining steps on one block folded together, until none is left; the steps then numbered from 1. No \
         sample changes.", "5 or 12",
        "panel::history_step(8, &mut plane, 8, 8, 8, 0, 4, &level, &mut steps, &mut levels, &mut index)?;\n\
         assert_eq!((plane[4], steps[0]), (102, 2));\n\
         panel::history_fold(&plane, 8, 8, 8, &mut steps, &mut levels, &mut index)?;\n\
         assert_eq!((plane[4], steps[0], levels[0]), (102, 1, 8));\n")]
    history_fold = panel_history_fold(
        plane: &[i32], stride: usize, width: usize, rows: usize, steps: &mut [u32], levels: &mut [i32], index: &mut [u32]);

    /// The inverse DCT of AV1 in its place, of length 4, 8, 16, 32 or 64; every number that is stored fits `bits`, 16 to 20.
    ///
    /// # Errors
    ///
    /// 1, 2, 6 or 15 of [`Refusal`]; then the list is as it was.
    ///
    /// # Example
    ///
    /// ```
    /// let mut t = [0, 4096, 0, 0];
    /// panel::av1_inv_dct(4, 16, &mut t)?;
    /// assert_eq!(t, [3784, 1567, -1567, -3784]);
    /// # Ok::<(), panel::Refusal>(())
    /// ```
    av1_inv_dct = panel_av1_inv_dct(n: usize, bits: u32, t: &mut [i32]);

    /// The inverse 4x4 WHT of AV1 in its place; every number that is stored fits `bits`, 16 to 20.
    ///
    /// # Errors
    ///
    /// 1, 6 or 15 of [`Refusal`]; then the list is as it was.
    ///
    /// # Example
    ///
    /// ```
    /// let mut t = [0; 16];
    /// t[0] = 16;
    /// panel::av1_inv_wht4x4(16, &mut t)?;
    /// assert_eq!(t, [1; 16]);
    /// # Ok::<(), panel::Refusal>(())
    /// ```
    av1_inv_wht4x4 = panel_av1_inv_wht4x4(bits: u32, t: &mut [i32]);
}
