//! The calls as the tests see them: a line for each, with its number in the case stream (docs/CASES.md). Each test reads a part.
#![allow(dead_code)]

use panel::Refusal;

pub type Answer = Result<(), Refusal>;
pub type Recon = fn(&mut [f32], &[i32], usize, usize, u32, &[i32]) -> Answer;
pub type Add<T> = fn(&mut [T], usize, &[i32], usize, usize, u32) -> Answer;
pub type Turn = fn(&[i32], &mut [i32]) -> Answer;
pub type Block<T> = fn(u32, &mut [T], usize, usize, usize, usize, &[i32]) -> Answer;

/// What a call takes. The calls on histories, chroma and AV1 are alone with their arguments.
#[derive(Clone, Copy)]
pub enum Call {
    Recon(Recon),
    Add(Add<i32>),
    AddBytes(Add<u8>),
    Chroma,
    Turn(Turn),
    Block(Block<i32>),
    BlockBytes(Block<u8>),
    HistoryStep,
    HistoryUndo,
    HistoryWithdraw,
    HistoryCanWithdraw,
    HistoryRebuild,
    HistoryFold,
    Av1Dct,
    Av1Wht,
}

impl Call {
    /// The refusals that a call of this kind can give.
    pub fn refusals(self) -> &'static [u32] {
        match self {
            Call::Recon(_) => &[1, 2, 3, 4, 6, 7, 8],
            Call::Add(_) => &[1, 2, 3, 4, 5, 6, 7, 8],
            Call::AddBytes(_) => &[1, 2, 3, 4, 5, 6, 7, 11],
            Call::Chroma => &[1, 6, 7, 9],
            Call::Turn(_) => &[6, 7],
            Call::Block(_) => &[1, 5, 6, 7, 8, 10],
            Call::BlockBytes(_) => &[1, 5, 6, 7, 10],
            Call::HistoryStep => &[1, 5, 6, 7, 8, 10, 12, 14],
            Call::HistoryUndo | Call::HistoryWithdraw | Call::HistoryCanWithdraw => &[5, 8, 10, 12, 13],
            Call::HistoryRebuild | Call::HistoryFold => &[5, 12],
            Call::Av1Dct => &[1, 2, 6, 15],
            Call::Av1Wht => &[1, 6, 15],
        }
    }
}

#[derive(Clone, Copy)]
pub struct Entry {
    pub number: u64,
    pub name: &'static str,
    pub call: Call,
}

macro_rules! of {
    ($number:literal, $kind:ident, $name:ident) => {
        Entry { number: $number, name: stringify!($name), call: Call::$kind(panel::$name) }
    };
}

macro_rules! alone {
    ($number:literal, $kind:ident, $name:ident) => {
        Entry { number: $number, name: stringify!($name), call: Call::$kind }
    };
}

pub const TABLE: &[Entry] = &[
    of!(1, Recon, inv_txfm_recon_f32),
    of!(2, Recon, inv_txfm_recon_f32_lanes),
    of!(3, Add, inv_txfm_add),
    of!(4, Add, inv_txfm_add_lanes),
    alone!(5, Chroma, cctx),
    of!(6, Turn, fwht4x4),
    of!(7, Turn, iwht4x4),
    of!(8, Block, lossless_step),
    of!(9, Block, lossless_undo),
    of!(10, Recon, inv_txfm_recon_f32_rows),
    of!(11, Recon, inv_txfm_recon_f32_rows_lanes),
    of!(12, Add, inv_txfm_add_rows),
    of!(13, Add, inv_txfm_add_rows_lanes),
    of!(14, Recon, inv_txfm_recon_f32_clamped),
    of!(15, Recon, inv_txfm_recon_f32_clamped_lanes),
    of!(16, Add, inv_txfm_add_clamped),
    of!(17, Add, inv_txfm_add_clamped_lanes),
    of!(18, AddBytes, inv_txfm_add_bytes),
    of!(19, AddBytes, inv_txfm_add_bytes_lanes),
    of!(20, AddBytes, inv_txfm_add_rows_bytes),
    of!(21, AddBytes, inv_txfm_add_rows_bytes_lanes),
    of!(22, BlockBytes, lossless_step_bytes),
    of!(23, BlockBytes, lossless_undo_bytes),
    of!(24, Recon, inv_txfm_recon_f32_lanes8),
    of!(25, Recon, inv_txfm_recon_f32_rows_lanes8),
    of!(26, Add, inv_txfm_add_lanes8),
    of!(27, Add, inv_txfm_add_rows_lanes8),
    alone!(28, HistoryStep, history_step),
    alone!(29, HistoryUndo, history_undo),
    alone!(30, HistoryWithdraw, history_withdraw),
    alone!(31, HistoryCanWithdraw, history_can_withdraw),
    alone!(32, HistoryRebuild, history_rebuild),
    alone!(33, HistoryFold, history_fold),
    alone!(34, Av1Dct, av1_inv_dct),
    alone!(35, Av1Wht, av1_inv_wht4x4),
    of!(36, Recon, inv_txfm_recon_f32_fast),
    of!(37, Recon, inv_txfm_recon_f32_rows_fast),
    of!(38, Add, inv_txfm_add_fast),
    of!(39, Add, inv_txfm_add_rows_fast),
    of!(40, AddBytes, inv_txfm_add_bytes_fast),
    of!(41, AddBytes, inv_txfm_add_rows_bytes_fast),
];
