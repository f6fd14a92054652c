//! Every call: the sums of document 01 (P1 to P12) and every refusal with its slice and place. What is expected is the text of
//! documents 01 and 02, never an answer of the library. After a refusal every lent slice is as it was.

mod common;

use common::{Answer, Call, Entry, TABLE};
use panel::{Area, History, Refusal, HISTORY_LEVELS, HISTORY_STEPS};
use std::collections::BTreeSet;
use std::convert::TryInto;

/// Collects the refusals of a call, each with everything that was lent before and after.
struct Refusals {
    name: &'static str,
    seen: BTreeSet<u32>,
}

impl Refusals {
    fn of(entry: &Entry) -> Refusals {
        Refusals { name: entry.name, seen: BTreeSet::new() }
    }

    /// Runs a call on what is lent; it has to refuse, and to leave all of it.
    fn expect<T: Clone + PartialEq>(
        &mut self,
        number: u32,
        slice: u32,
        place: usize,
        lent: &T,
        run: impl FnOnce(&mut T) -> Answer,
    ) {
        let mut after = lent.clone();
        let answer = run(&mut after);
        assert_eq!(answer, Err(Refusal { number, slice, place }), "{}", self.name);
        assert!(after == *lent, "{} wrote, and refused with {}", self.name, number);
        self.seen.insert(number);
    }

    /// Every refusal that the call can give was seen.
    fn all(self, call: Call) {
        assert_eq!(self.seen.into_iter().collect::<Vec<_>>(), call.refusals(), "{}", self.name);
    }
}

fn entries(wanted: fn(Call) -> bool) -> impl Iterator<Item = &'static Entry> {
    TABLE.iter().filter(move |entry| wanted(entry.call))
}

fn entry(name: &str) -> &'static Entry {
    TABLE.iter().find(|entry| entry.name == name).expect("a call")
}

/// Runs a call on a plane of bytes; every number of the plane has to be one.
fn in_bytes(plane: &mut [i32], run: impl FnOnce(&mut [u8]) -> Answer) -> Answer {
    let mut bytes: Vec<u8> = plane.iter().map(|&sample| sample.try_into().expect("a byte")).collect();
    let answer = run(&mut bytes);
    plane.iter_mut().zip(bytes).for_each(|(sample, byte)| *sample = byte.into());
    answer
}

// ---- The pixel calls

/// What a pixel call is lent. An add call works on the plane, a float call from the prediction to the output.
#[derive(Clone, PartialEq)]
struct Pixels {
    coeff: Vec<i32>,
    pred: Vec<i32>,
    out: Vec<f32>,
    plane: Vec<i32>,
    stride: usize,
    txtp: usize,
    tx: usize,
    depth: u32,
}

impl Pixels {
    fn run(&mut self, call: Call) -> Answer {
        let Pixels { coeff, pred, out, plane, stride, txtp, tx, depth } = self;
        match call {
            Call::Recon(run) => run(out, coeff, *txtp, *tx, *depth, pred),
            Call::Add(run) => run(plane, *stride, coeff, *txtp, *tx, *depth),
            Call::AddBytes(run) => in_bytes(plane, |bytes| run(bytes, *stride, coeff, *txtp, *tx, *depth)),
            _ => unreachable!("a pixel call"),
        }
    }
}

fn draws(call: Call) -> bool {
    matches!(call, Call::Recon(_) | Call::Add(_) | Call::AddBytes(_))
}

/// Depth 8, prediction 100, one coefficient: the pixels are `rest`, but for the first of row `row`.
struct Sum {
    name: &'static str,
    tx: usize,
    sides: (usize, usize),
    txtp: usize,
    at: (usize, usize),
    value: i32,
    rest: i32,
    row: usize,
    first: &'static [i32],
}

const fn all(name: &'static str, tx: usize, sides: (usize, usize), value: i32, rest: i32) -> Sum {
    Sum { name, tx, sides, txtp: 0, at: (0, 0), value, rest, row: 0, first: &[] }
}

const SUMS: [Sum; 10] = [
    all("P1", 0, (4, 4), 15, 101),
    all("P2", 0, (4, 4), 14, 100),
    all("P3", 0, (4, 4), -18, 99),
    all("P4", 0, (4, 4), -17, 100),
    all("P5", 19, (4, 32), 256, 103),
    Sum { name: "P6", tx: 0, sides: (4, 4), txtp: 34, at: (0, 0), value: 128, rest: 100, row: 0, first: &[102, 106, 109, 111] },
    Sum { name: "P7", tx: 0, sides: (4, 4), txtp: 35, at: (0, 1), value: 128, rest: 100, row: 0, first: &[109, 98, 89, 94] },
    Sum { name: "P8", tx: 5, sides: (4, 8), txtp: 33, at: (1, 0), value: 256, rest: 100, row: 1, first: &[132] },
    all("64x64, number 0 = 64", 4, (64, 64), 64, 101),
    all("64x64, number 0 = 63", 4, (64, 64), 63, 100),
];

/// A plane three wider than the block, and numbers beyond those used, which no sample may be: neither read nor written.
#[test]
fn pixels_are_the_sums_of_document_01() {
    for entry in entries(draws) {
        let bytes = matches!(entry.call, Call::AddBytes(_));
        let pad = if bytes { 7 } else { -12_345 };
        let rows = entry.name.contains("_rows");
        for sum in SUMS.iter().filter(|sum| !bytes || sum.sides.0.max(sum.sides.1) < 64) {
            let (w, h) = sum.sides;
            let (sw, sh) = (w.min(32), h.min(32));
            let stride = w + 3;
            let number = if rows { sum.at.0 * sw + sum.at.1 } else { sum.at.0 + sum.at.1 * sh };
            let mut lent = Pixels {
                coeff: [vec![0; sw * sh], vec![i32::MAX; 5]].concat(),
                pred: [vec![100; w * h], vec![pad; 5]].concat(),
                out: vec![-1.0; w * h + 5],
                plane: vec![pad; (h - 1) * stride + w + 5],
                stride,
                txtp: sum.txtp,
                tx: sum.tx,
                depth: 8,
            };
            lent.coeff[number] = sum.value;
            let mut wanted = lent.clone();
            for r in 0..h {
                for x in 0..w {
                    lent.plane[r * stride + x] = 100;
                    let pixel = if r == sum.row { *sum.first.get(x).unwrap_or(&sum.rest) } else { sum.rest };
                    wanted.plane[r * stride + x] = if let Call::Recon(_) = entry.call { 100 } else { pixel };
                    if let Call::Recon(_) = entry.call {
                        wanted.out[r * w + x] = pixel as f32;
                    }
                }
            }
            assert_eq!(lent.run(entry.call), Ok(()), "{} {}", entry.name, sum.name);
            assert!(lent == wanted, "{} {}", entry.name, sum.name);
        }
    }
}

#[test]
fn pixel_calls_refuse() {
    for entry in entries(draws) {
        let call = entry.call;
        let adds = !matches!(call, Call::Recon(_));
        let bytes = matches!(call, Call::AddBytes(_));
        let (low, high) = if entry.name.contains("_clamped") { (-11_864_550, 11_864_549) } else { (-32_768, 32_767) };
        // Size 5, 4x8, has the rectangular scaling; every length is the shortest that is taken.
        let usual = Pixels {
            coeff: vec![0; 32],
            pred: vec![100; 32],
            out: vec![-1.0; 32],
            plane: vec![100; 67],
            stride: 9,
            txtp: 0,
            tx: 5,
            depth: 8,
        };
        let mut refusals = Refusals::of(entry);
        let mut refuse = |number, slice, place, change: &dyn Fn(&mut Pixels)| {
            let mut lent = usual.clone();
            change(&mut lent);
            refusals.expect(number, slice, place, &lent, |lent| lent.run(call));
        };
        refuse(1, 0, 0, &|p| p.depth = 7);
        refuse(1, 0, 0, &|p| p.depth = 13);
        refuse(2, 0, 0, &|p| p.tx = 25);
        refuse(2, 0, 0, &|p| p.tx = usize::MAX);
        refuse(3, 0, 0, &|p| p.txtp = 256);
        refuse(4, 0, 0, &|p| p.txtp = 4);
        refuse(4, 0, 1, &|p| p.txtp = 192);
        refuse(6, 1, 0, &|p| p.coeff.truncate(31));
        refuse(6, 1, 0, &|p| p.coeff.clear());
        if adds {
            refuse(5, 0, 0, &|p| p.stride = 3);
            refuse(5, 0, 0, &|p| p.stride = 65_537);
            refuse(6, 2, 0, &|p| p.plane.truncate(66));
            refuse(6, 2, 0, &|p| p.plane.clear());
        } else {
            refuse(6, 2, 0, &|p| p.pred.truncate(31));
            refuse(6, 3, 0, &|p| p.out.clear());
        }
        refuse(7, 1, 3, &|p| p.coeff[3] = high + 1);
        refuse(7, 1, 30, &|p| {
            p.coeff[30] = low - 1;
            p.coeff[31] = high + 1;
        });
        if bytes {
            refuse(1, 0, 0, &|p| p.depth = 9);
            refuse(2, 0, 0, &|p| p.tx = 25);
            refuse(11, 0, 0, &|p| {
                p.tx = 4;
                p.txtp = 256;
            });
            refuse(11, 0, 0, &|p| p.tx = 24);
        } else {
            refuse(8, 2, 19, &|p| {
                p.plane[19] = 256;
                p.pred[19] = 256;
                p.plane[20] = -1;
                p.pred[20] = -1;
            });
            refuse(8, 2, if adds { 66 } else { 31 }, &|p| {
                p.plane[66] = -1;
                p.pred[31] = -1;
            });
        }
        refuse(1, 0, 0, &|p| {
            p.depth = 7;
            p.tx = 25;
        });
        refusals.all(call);
        let mut ends = usual.clone();
        ends.coeff[0] = high;
        ends.coeff[31] = low;
        assert_eq!(ends.run(call), Ok(()), "{} takes both ends of the range", entry.name);
    }
}

/// A plane of bytes is left as the wide call leaves a plane of the same samples.
#[test]
fn bytes_are_the_samples_of_the_wide_calls() {
    let coeff: Vec<i32> = (0..1_024).map(|i| (i * 7_919 + 13) % 4_001 - 2_000).collect();
    for tx in (0..25).filter(|tx| ![4, 11, 12, 17, 18, 21, 22, 23, 24].contains(tx)) {
        for entry in entries(|call| matches!(call, Call::AddBytes(_))) {
            let wide = TABLE.iter().find(|wide| wide.name == entry.name.replace("_bytes", "")).expect("the wide call");
            let plane: Vec<i32> = (0..36 * 32).map(|i| i * 37 % 256).collect();
            let mut lent = Pixels { coeff: coeff.clone(), pred: vec![], out: vec![], plane, stride: 36, txtp: 0, tx, depth: 8 };
            let mut wanted = lent.clone();
            assert_eq!((lent.run(entry.call), wanted.run(wide.call)), (Ok(()), Ok(())), "{} size {}", entry.name, tx);
            assert!(lent == wanted, "{} size {}", entry.name, tx);
        }
    }
}

/// Two slices that are only read may be one.
#[test]
fn shared_slices_may_be_one() {
    let both = [100; 16];
    let (mut once, mut twice) = ([0.0; 16], [0.0; 16]);
    assert_eq!(panel::inv_txfm_recon_f32(&mut once, &both, 0, 0, 8, &both), Ok(()));
    assert_eq!(panel::inv_txfm_recon_f32(&mut twice, &both, 0, 0, 8, &both.clone()), Ok(()));
    assert_eq!(once, twice);
}

// ---- Chroma

#[test]
fn chroma_turns_and_refuses() {
    let (mut u, mut v) = ([128, -128, 127, -127], [0; 4]);
    assert_eq!(panel::cctx(&mut u, &mut v, 0, 1, 8), Ok(()));
    assert_eq!((u, v), ([1, -1, 0, 0], [0; 4]), "P9");
    assert_eq!(panel::cctx(&mut [], &mut [], 0, 1, 8), Ok(()));

    let entry = entry("cctx");
    let mut refusals = Refusals::of(entry);
    let mut refuse = |number, slice, place, u: &[i32], v: &[i32], angle: (i32, i32), depth| {
        refusals.expect(number, slice, place, &(u.to_vec(), v.to_vec()), |(u, v)| panel::cctx(u, v, angle.0, angle.1, depth));
    };
    refuse(1, 0, 0, &[0], &[0], (0, 1), 7);
    refuse(1, 0, 0, &[0], &[0], (0, 1), 13);
    refuse(6, 4, 0, &[0; 3], &[0; 4], (0, 1), 8);
    refuse(6, 5, 0, &[0; 4], &[], (0, 1), 8);
    refuse(7, 4, 2, &[0, 0, 32_768], &[0; 3], (0, 1), 8);
    refuse(7, 5, 1, &[0, 0, 32_768], &[0, -32_769, 0], (0, 1), 8);
    refuse(7, 4, 0, &[-32_769], &[32_768], (0, 1), 8);
    refuse(7, 5, 0, &[0, 32_768], &[32_768, 0], (0, 1), 8);
    refuse(9, 0, 0, &[0], &[0], (-257, 257), 8);
    refuse(9, 0, 1, &[0], &[0], (256, 257), 8);
    refusals.all(entry.call);
}

// ---- Walsh-Hadamard and lossless steps

/// P10 to P12: the residuals and their levels.
const PAIRS: [([i32; 16], [i32; 16]); 3] = [
    ([1, 2, 3, 4, 0, 0, 0, 0, 0, 0, 0, 0, 0, 0, 0, 0], [3, -1, 0, 0, 2, -1, 0, -1, 2, -1, 0, -1, 2, -1, 0, -1]),
    ([-1, 0, 0, 0, 0, 0, 0, 0, 0, 0, 0, 0, 0, 0, 0, 0], [0, 0, 0, 0, 0, -1, -1, -1, 0, -1, -1, -1, 0, -1, -1, -1]),
    ([1; 16], ONE_UP),
];

/// Sixteen residuals of 1.
const ONE_UP: [i32; 16] = [4, 0, 0, 0, 0, 0, 0, 0, 0, 0, 0, 0, 0, 0, 0, 0];

#[test]
fn walsh_hadamard_is_that_of_document_01() {
    for (resid, level) in &PAIRS {
        let (mut levels, mut back) = ([0; 16], [0; 16]);
        assert_eq!(panel::fwht4x4(resid, &mut levels), Ok(()));
        assert_eq!(panel::iwht4x4(level, &mut back), Ok(()));
        assert_eq!((&levels, &back), (level, resid));
    }
}

#[test]
fn walsh_hadamard_refuses() {
    for entry in entries(|call| matches!(call, Call::Turn(_))) {
        let run = if let Call::Turn(run) = entry.call { run } else { unreachable!() };
        let end = if entry.name == "fwht4x4" { 65_535 } else { 262_144 };
        let mut refusals = Refusals::of(entry);
        let mut refuse = |number, slice, place, from: &[i32], count| {
            refusals.expect(number, slice, place, &(from.to_vec(), vec![77; count]), |(from, to)| run(from, to));
        };
        refuse(6, 1, 0, &[0; 15], 16);
        refuse(6, 1, 0, &[0; 17], 15);
        refuse(6, 1, 0, &[], 0);
        refuse(6, 3, 0, &[0; 16], 15);
        refuse(6, 3, 0, &[0; 16], 17);
        let mut from = [end; 16];
        from[2] = end + 1;
        from[15] = -end - 1;
        refuse(7, 1, 2, &from, 16);
        from[2] = end;
        refuse(7, 1, 15, &from, 16);
        refusals.all(entry.call);
    }
}

/// What a lossless call is lent: a block at row 1, column 4 of a plane of stride and width 8, which reaches no further.
#[derive(Clone, PartialEq)]
struct Change {
    depth: u32,
    plane: Vec<i32>,
    stride: usize,
    width: usize,
    row: usize,
    column: usize,
    level: Vec<i32>,
}

impl Change {
    fn usual() -> Change {
        Change { depth: 8, plane: vec![100; 40], stride: 8, width: 8, row: 1, column: 4, level: vec![0; 16] }
    }

    fn run(&mut self, call: Call) -> Answer {
        let Change { depth, plane, stride, width, row, column, level } = self;
        match call {
            Call::Block(run) => run(*depth, plane, *stride, *width, *row, *column, level),
            Call::BlockBytes(run) => in_bytes(plane, |bytes| run(*depth, bytes, *stride, *width, *row, *column, level)),
            _ => unreachable!("a lossless call"),
        }
    }
}

fn steps(call: Call) -> bool {
    matches!(call, Call::Block(_) | Call::BlockBytes(_))
}

#[test]
fn a_step_gains_and_its_undo_loses() {
    for entry in entries(steps) {
        let gained = if entry.name.contains("_step") { 1 } else { -1 };
        for (resid, level) in &PAIRS {
            let mut lent = Change { level: level.to_vec(), ..Change::usual() };
            let mut wanted = lent.clone();
            for (i, resid) in resid.iter().enumerate() {
                wanted.plane[(1 + i / 4) * 8 + 4 + i % 4] += gained * resid;
            }
            assert_eq!(lent.run(entry.call), Ok(()), "{}", entry.name);
            assert!(lent == wanted, "{}", entry.name);
        }
        // Width 6 at stride 8: column 2 fits, column 3 doesn't, and the pad is neither read nor written.
        let mut lent = Change { level: ONE_UP.to_vec(), width: 6, column: 2, ..Change::usual() };
        for (i, sample) in lent.plane.iter_mut().enumerate().filter(|(i, _)| i % 8 >= 6) {
            *sample = 7 + i as i32;
        }
        let mut wanted = lent.clone();
        for i in 0..16 {
            wanted.plane[(1 + i / 4) * 8 + 2 + i % 4] += gained;
        }
        assert_eq!(lent.run(entry.call), Ok(()), "{}", entry.name);
        assert!(lent == wanted, "{}", entry.name);
    }
}

#[test]
fn steps_and_undos_refuse() {
    for entry in entries(steps) {
        let call = entry.call;
        let edge = if entry.name.contains("_step") { 255 } else { 0 };
        let mut refusals = Refusals::of(entry);
        let mut refuse = |number, slice, place, change: &dyn Fn(&mut Change)| {
            let mut lent = Change::usual();
            change(&mut lent);
            refusals.expect(number, slice, place, &lent, |lent| lent.run(call));
        };
        refuse(1, 0, 0, &|c| c.depth = 7);
        refuse(1, 0, 0, &|c| c.depth = 13);
        refuse(5, 0, 0, &|c| c.stride = 3);
        refuse(5, 0, 0, &|c| c.stride = 65_537);
        refuse(5, 0, 0, &|c| c.width = 3);
        refuse(5, 0, 0, &|c| c.width = 9);
        refuse(6, 2, 0, &|c| c.width = 7);
        refuse(6, 2, 0, &|c| c.plane.truncate(39));
        refuse(6, 2, 0, &|c| c.plane.clear());
        refuse(6, 2, 0, &|c| c.row = 65_536);
        refuse(6, 2, 0, &|c| c.column = 5);
        refuse(6, 2, 0, &|c| c.column = usize::MAX - 3);
        refuse(6, 1, 0, &|c| c.level.truncate(15));
        refuse(6, 1, 0, &|c| c.level.push(0));
        refuse(7, 1, 2, &|c| {
            c.level[2] = 262_145;
            c.level[3] = -262_145;
        });
        if let Call::BlockBytes(_) = call {
            refuse(1, 0, 0, &|c| c.depth = 9);
        } else {
            refuse(8, 2, 20, &|c| c.plane[20] = 256);
            refuse(8, 2, 39, &|c| c.plane[39] = -1);
        }
        refuse(10, 2, 22, &|c| {
            c.level[0] = 4;
            c.plane[22] = edge;
            c.plane[39] = edge;
        });
        refusals.all(call);
    }
}

// ---- Histories

/// What a call on a history is lent: a plane of 8 by 8 samples, and the memory of its history.
#[derive(Clone, PartialEq)]
struct Kept {
    depth: u32,
    plane: Vec<i32>,
    area: Area,
    row: usize,
    column: usize,
    number: u32,
    level: Vec<i32>,
    steps: Vec<u32>,
    levels: Vec<i32>,
    index: Vec<u32>,
}

impl Kept {
    fn empty() -> Kept {
        Kept {
            depth: 8,
            plane: vec![100; 64],
            area: Area { stride: 8, width: 8, rows: 8 },
            row: 0,
            column: 0,
            number: 1,
            level: ONE_UP.to_vec(),
            steps: vec![0; HISTORY_STEPS],
            levels: vec![0; HISTORY_LEVELS],
            index: vec![0; 4],
        }
    }

    /// Entry i of the list: a step of depth 8 by sixteen residuals of 1.
    fn entry(&mut self, i: usize, number: u32, row: u32, column: u32) {
        self.steps[1 + 4 * i..5 + 4 * i].copy_from_slice(&[number, 8, row, column]);
        self.levels[16 * i..16 * i + 16].copy_from_slice(&ONE_UP);
        self.steps[0] = self.steps[0].max(i as u32 + 1);
    }

    fn run(&mut self, call: Call) -> Answer {
        let Kept { depth, plane, area, row, column, number, level, steps, levels, index } = self;
        let (stride, width, rows) = (area.stride, area.width, area.rows);
        match call {
            Call::HistoryStep => {
                panel::history_step(*depth, plane, stride, width, rows, *row, *column, level, steps, levels, index)
            }
            Call::HistoryUndo => panel::history_undo(plane, stride, width, rows, steps, levels, index),
            Call::HistoryWithdraw => panel::history_withdraw(plane, stride, width, rows, *number, steps, levels, index),
            Call::HistoryCanWithdraw => panel::history_can_withdraw(plane, stride, width, rows, *number, steps, levels, index),
            Call::HistoryRebuild => panel::history_rebuild(plane, stride, width, rows, steps, levels, index),
            Call::HistoryFold => panel::history_fold(plane, stride, width, rows, steps, levels, index),
            _ => unreachable!("a call on a history"),
        }
    }
}

fn remembers(call: Call) -> bool {
    use Call::*;
    matches!(call, HistoryStep | HistoryUndo | HistoryWithdraw | HistoryCanWithdraw | HistoryRebuild | HistoryFold)
}

#[test]
fn calls_on_a_history_refuse() {
    for entry in entries(remembers) {
        let call = entry.call;
        let mut refusals = Refusals::of(entry);
        let mut refuse = |number, slice, place, change: &dyn Fn(&mut Kept)| {
            let mut lent = Kept::empty();
            change(&mut lent);
            refusals.expect(number, slice, place, &lent, |lent| lent.run(call));
        };
        refuse(5, 0, 0, &|k| k.area.stride = 3);
        refuse(5, 0, 0, &|k| k.area.stride = 65_537);
        refuse(5, 0, 0, &|k| k.area.width = 3);
        refuse(5, 0, 0, &|k| k.area.width = 9);
        refuse(5, 0, 0, &|k| k.area.rows = 3);
        refuse(5, 0, 0, &|k| k.area.rows = 65_537);
        refuse(12, 0, 0, &|k| k.steps.truncate(HISTORY_STEPS - 1));
        refuse(12, 0, 0, &|k| k.steps.push(0));
        refuse(12, 0, 0, &|k| k.steps.clear());
        refuse(12, 0, 0, &|k| k.levels.truncate(HISTORY_LEVELS - 1));
        refuse(12, 0, 0, &|k| k.levels.push(0));
        refuse(12, 0, 0, &|k| k.index.truncate(3));
        refuse(12, 0, 0, &|k| k.index.push(0));
        refuse(12, 0, 0, &|k| k.steps[0] = 4_097);
        refuse(12, 0, 0, &|k| k.entry(0, 0, 0, 0));
        refuse(12, 0, 0, &|k| k.entry(0, 1, 5, 0));
        refuse(12, 0, 0, &|k| {
            k.entry(0, 3, 0, 0);
            k.entry(1, 3, 4, 4);
        });
        match call {
            Call::HistoryStep => {
                refuse(1, 0, 0, &|k| k.depth = 7);
                refuse(1, 0, 0, &|k| k.depth = 13);
                refuse(6, 1, 0, &|k| k.level.truncate(15));
                refuse(6, 2, 0, &|k| k.row = 5);
                refuse(6, 2, 0, &|k| k.column = 5);
                refuse(6, 2, 0, &|k| k.plane.truncate(27));
                refuse(7, 1, 15, &|k| k.level[15] = 262_145);
                refuse(8, 2, 9, &|k| k.plane[9] = 256);
                refuse(10, 2, 27, &|k| k.plane[27] = 255);
                refuse(14, 0, 0, &|k| k.entry(0, u32::MAX, 0, 0));
                refuse(14, 0, 0, &|k| (0..4_096).for_each(|i| k.entry(i, i as u32 + 1, 4, 4)));
            }
            Call::HistoryUndo | Call::HistoryWithdraw | Call::HistoryCanWithdraw => {
                refuse(8, 2, 9, &|k| {
                    k.entry(0, 1, 0, 0);
                    k.plane[9] = -1;
                });
                refuse(10, 2, 27, &|k| {
                    k.entry(0, 1, 0, 0);
                    k.plane[27] = 0;
                });
                refuse(13, 0, if let Call::HistoryUndo = call { 0 } else { 1 }, &|_| ());
            }
            Call::HistoryFold => refuse(12, 0, 0, &|k| {
                k.entry(0, 1, 0, 0);
                k.entry(1, 2, 0, 0);
                k.levels[16] = 4 * 255; // together 256
            }),
            _ => (),
        }
        if matches!(call, Call::HistoryWithdraw | Call::HistoryCanWithdraw) {
            refuse(13, 0, 7, &|k| {
                k.entry(0, 1, 0, 0);
                k.number = 7;
            });
            refuse(13, 0, 1, &|k| {
                k.entry(0, 1, 0, 0);
                k.entry(1, 2, 2, 2);
            });
        }
        refusals.all(call);
    }
}

/// The numbers, rows and columns of a history's steps.
fn listed<S: AsRef<[u32]>, L: AsRef<[i32]>, I: AsRef<[u32]>>(history: &History<S, L, I>) -> Vec<(u32, usize, usize)> {
    history.iter().map(|step| (step.number, step.row, step.column)).collect()
}

/// Steps at 0,0 and 2,2 share a sample; one at 4,0 shares none with the first. What is expected is written by hand.
#[test]
fn a_history_remembers() {
    let mut plane = [100; 64];
    let area = Area { stride: 8, width: 8, rows: 8 };
    let mut history = History::new(area, vec![0; HISTORY_STEPS], vec![0; HISTORY_LEVELS], [0; 4]);
    let touched = |history: &History<Vec<u32>, Vec<i32>, [u32; 4]>| {
        [(0, 0), (3, 4), (4, 3), (7, 7)].map(|(row, column)| history.last_touch(row, column).unwrap_or(0))
    };
    assert_eq!(history.area(), area);
    assert!(history.is_empty() && history.iter().next().is_none());
    assert_eq!(history.step(8, &mut plane, 0, 0, &ONE_UP), Ok(1));
    assert_eq!(history.step(8, &mut plane, 2, 2, &ONE_UP), Ok(2));
    assert_eq!((plane[0], plane[18], plane[45], plane[46]), (101, 102, 101, 100));
    assert_eq!((touched(&history), listed(&history)), ([2, 2, 2, 2], vec![(1, 0, 0), (2, 2, 2)]));
    assert_eq!(history.iter().map(|step| (step.depth, *step.level)).collect::<Vec<_>>(), [(8, ONE_UP); 2]);
    assert_eq!(history.last_touch(8, 0), None);
    assert_eq!(history.last_touch(0, 8), None);
    let overlapped = Err(Refusal { number: 13, slice: 0, place: 1 });
    assert_eq!((history.can_withdraw(&plane, 1), history.withdraw(&mut plane, 1)), (overlapped, overlapped));
    assert_eq!(history.undo(&mut plane), Ok(()));
    assert_eq!(touched(&history), [1, 0, 0, 0]);
    assert_eq!(history.step(8, &mut plane, 4, 0, &ONE_UP), Ok(2));
    assert_eq!(history.can_withdraw(&plane, 1), Ok(()));
    assert_eq!(history.withdraw(&mut plane, 1), Ok(()));
    assert_eq!((touched(&history), listed(&history)), ([0, 0, 2, 0], vec![(2, 4, 0)]));
    assert_eq!(history.step(8, &mut plane, 0, 0, &ONE_UP), Ok(3));
    assert_eq!(history.step(8, &mut plane, 0, 0, &ONE_UP), Ok(4));
    assert_eq!((plane[0], plane[32]), (102, 101));
    assert_eq!(history.fold(&plane), Ok(()));
    assert_eq!((touched(&history), listed(&history)), ([2, 0, 1, 0], vec![(1, 4, 0), (2, 0, 0)]));
    assert_eq!(history.iter().next_back().map(|step| step.level[0]), Some(8));
    // An index of which someone has written, rebuilt: it is what it was.
    let (steps, levels, index) = history.into_memory();
    let mut history = History::new(area, steps, levels, [9; 4]);
    assert_eq!(history.rebuild(&plane), Ok(()));
    assert_eq!(history.memory().2, index);
    // A clone steps on by itself.
    let mut other = history.clone();
    assert_eq!(other.step(8, &mut plane.clone(), 4, 4, &ONE_UP), Ok(3));
    assert_eq!((other.len(), history.len()), (3, 2));
    assert_eq!(history.undo(&mut plane), Ok(()));
    assert_eq!(history.undo(&mut plane), Ok(()));
    assert_eq!(plane, [100; 64]);
    assert_eq!(history.undo(&mut plane), Err(Refusal { number: 13, slice: 0, place: 0 }));
    other.clear();
    assert!(other.is_empty() && touched(&other) == [0; 4]);
}

/// Memory of a wrong length or with wrong contents is refused by every call, and no look at it goes past an end.
#[test]
fn a_history_of_wrong_memory_is_refused() {
    let area = Area { stride: 8, width: 8, rows: 8 };
    let wrong = Err(Refusal { number: 12, slice: 0, place: 0 });
    let mut plane = [100; 64];
    let lists: [(Vec<u32>, Vec<i32>, usize); 4] = [
        (vec![], vec![], 0),
        (vec![u32::MAX], vec![0; 40], 0),
        (vec![u32::MAX; HISTORY_STEPS], vec![0; HISTORY_LEVELS], 4_096),
        (vec![3; 12], vec![0; HISTORY_LEVELS], 2),
    ];
    for (steps, levels, listed) in lists {
        let mut history = History::new(area, steps, levels, []);
        assert_eq!((history.len(), history.iter().count(), history.iter().rev().count()), (listed, listed, listed));
        assert_eq!((history.last_touch(0, 0), history.last_touch(usize::MAX, usize::MAX)), (None, None));
        assert_eq!(history.step(8, &mut plane, 0, 0, &ONE_UP).map(drop), wrong);
        assert_eq!(history.undo(&mut plane), wrong);
        assert_eq!(history.withdraw(&mut plane, 1), wrong);
        assert_eq!(history.can_withdraw(&plane, 1), wrong);
        assert_eq!(history.fold(&plane), wrong);
        assert_eq!(history.rebuild(&plane), wrong);
    }
}

// ---- The older edition

#[test]
fn the_older_edition_transforms_and_refuses() {
    let sums = [[2896, 2896, 2896, 2896], [3784, 1567, -1567, -3784], [2896, -2896, -2896, 2896], [1567, -3784, 3784, -1567]];
    for (place, sum) in sums.iter().enumerate() {
        let mut t = [0; 4];
        t[place] = 4096;
        assert_eq!(panel::av1_inv_dct(4, 16, &mut t), Ok(()));
        assert_eq!(t, *sum);
    }
    for n in [4, 8, 16, 32, 64] {
        let mut t = vec![0; n];
        t[0] = 4096;
        assert_eq!(panel::av1_inv_dct(n, 20, &mut t), Ok(()));
        assert_eq!(t, vec![2896; n]);
    }
    for (resid, level) in &PAIRS {
        let mut t = level.map(|level| 4 * level);
        assert_eq!(panel::av1_inv_wht4x4(16, &mut t), Ok(()));
        assert_eq!(t, *resid);
    }

    let dct = entry("av1_inv_dct");
    let mut refusals = Refusals::of(dct);
    let mut refuse = |number, slice, place, n, bits, t: &[i32]| {
        refusals.expect(number, slice, place, &t.to_vec(), |t| panel::av1_inv_dct(n, bits, t));
    };
    refuse(1, 0, 0, 4, 15, &[0; 4]);
    refuse(1, 0, 0, 4, 21, &[0; 4]);
    refuse(2, 0, 0, 12, 16, &[0; 12]);
    refuse(2, 0, 0, 0, 16, &[]);
    refuse(6, 1, 0, 64, 16, &[0; 63]);
    refuse(6, 1, 0, 64, 16, &[0; 65]);
    refuse(15, 0, 3, 4, 16, &[0, 0, 0, 32_768]);
    refuse(15, 0, 4, 4, 16, &[32_767, 0, 32_767, 0]);
    refusals.all(dct.call);

    let wht = entry("av1_inv_wht4x4");
    let mut refusals = Refusals::of(wht);
    let mut refuse = |number, slice, place, bits, t: &[i32]| {
        refusals.expect(number, slice, place, &t.to_vec(), |t| panel::av1_inv_wht4x4(bits, t));
    };
    refuse(1, 0, 0, 15, &[0; 16]);
    refuse(1, 0, 0, 21, &[0; 16]);
    refuse(6, 1, 0, 16, &[0; 15]);
    refuse(6, 1, 0, 16, &[0; 17]);
    let mut t = [0; 16];
    t[9] = -32_769;
    refuse(15, 0, 9, 16, &t);
    refusals.all(wht.call);
}
