//! Draws a still of AV2 blocks, changes it without loss, and steps back. Prints what the panel shows after each.

use panel::{fwht4x4, history_index, inv_txfm_add, tx_size, txtp, Area, History, Refusal, Tx1d, TxClass};
use panel::{HISTORY_LEVELS, HISTORY_STEPS};

const DEPTH: u32 = 8;
const WIDTH: usize = 14;
/// Two samples of each line are pad: no call touches them.
const STRIDE: usize = 16;
const ROWS: usize = 8;

/// The picture as text, a sign for each sample: the brighter, the fuller. The pad is shown as it is kept.
fn show(what: &str, plane: &[i32]) {
    println!("{}", what);
    for line in plane.chunks(STRIDE) {
        let signs = line[..WIDTH].iter().map(|&sample| b" .:-=+*#%@"[sample as usize * 10 / 256] as char);
        println!("    |{}| pad {:?}", signs.collect::<String>(), &line[WIDTH..]);
    }
}

/// The levels that lead from the block at a row and column to sixteen wanted samples.
fn levels_to(plane: &[i32], row: usize, column: usize, wanted: &[i32; 16]) -> Result<[i32; 16], Refusal> {
    let mut difference = [0; 16];
    for (i, sample) in wanted.iter().enumerate() {
        difference[i] = sample - plane[(row + i / 4) * STRIDE + column + i % 4];
    }
    let mut level = [0; 16];
    fwht4x4(&difference, &mut level)?;
    Ok(level)
}

fn main() -> Result<(), Refusal> {
    let mut plane = [77; STRIDE * ROWS];
    for line in plane.chunks_mut(STRIDE) {
        line[..WIDTH].fill(128);
    }

    // The still: a bright block of 8 by 8, and a ramp of 4 by 8 beside it.
    let dct = txtp(Tx1d::Dct, Tx1d::Dct, TxClass::TwoD);
    let mut coeff = [0; 64];
    coeff[0] = 2_400;
    inv_txfm_add(&mut plane, STRIDE, &coeff, dct, tx_size::TX_8X8, DEPTH)?;
    let mut coeff = [0; 32];
    coeff[1] = -2_000;
    inv_txfm_add(&mut plane[8..], STRIDE, &coeff, dct, tx_size::RTX_4X8, DEPTH)?;
    let still = plane;
    show("the still", &plane);

    // Two changes, in memory that is lent.
    let (mut steps, mut levels) = (vec![0; HISTORY_STEPS], vec![0; HISTORY_LEVELS]);
    let mut index = [0; history_index(WIDTH, ROWS)];
    let area = Area { stride: STRIDE, width: WIDTH, rows: ROWS };
    let mut history = History::new(area, &mut steps[..], &mut levels[..], &mut index[..]);
    let ring = [9, 9, 9, 9, 9, 250, 250, 9, 9, 250, 250, 9, 9, 9, 9, 9];
    let level = levels_to(&plane, 2, 2, &ring)?;
    let first = history.step(DEPTH, &mut plane, 2, 2, &level)?;
    let level = levels_to(&plane, 1, 10, &ring)?;
    let second = history.step(DEPTH, &mut plane, 1, 10, &level)?;
    show("two rings", &plane);
    println!("    the cell of row 3, column 3 was last touched by step {}", history.last_touch(3, 3).unwrap_or(0));
    for step in &history {
        println!("    step {} at row {}, column {}", step.number, step.row, step.column);
    }

    // The first out of the middle, then the newest.
    history.withdraw(&mut plane, first)?;
    show("the first ring withdrawn", &plane);
    match history.withdraw(&mut plane, first) {
        Ok(()) => unreachable!("the step is gone"),
        Err(refusal) => println!("    once more: {}", refusal),
    }
    history.undo(&mut plane)?;
    println!("step {} undone: the still again: {}", second, plane == still);
    assert_eq!(plane, still);
    Ok(())
}
