//! A history of lossless steps with its three pieces of memory, owned or borrowed.

use crate::calls;
use crate::refusal::Refusal;
use core::convert::TryInto;
use core::iter::FusedIterator;

/// How many numbers the list of steps has: their count, then number, depth, row and column of each.
pub const HISTORY_STEPS: usize = 1 + 4 * LONGEST_HISTORY;
/// How many numbers the list of levels has: sixteen for each step.
pub const HISTORY_LEVELS: usize = 16 * LONGEST_HISTORY;
/// How many steps can remain.
pub const LONGEST_HISTORY: usize = 4_096;

/// How many numbers the index of a visible area has: one for each 4x4 cell, the partial ones at its edges included.
///
/// ```
/// assert_eq!(panel::history_index(1_918, 1_080), 480 * 270);
/// ```
pub const fn history_index(width: usize, rows: usize) -> usize {
    cells(width).saturating_mul(cells(rows))
}

/// How many cells a length has.
const fn cells(length: usize) -> usize {
    length / 4 + (length % 4 != 0) as usize
}

/// The visible area of a plane: its lines are `stride` apart and show `width` samples, and `rows` of them are visible.
#[derive(Clone, Copy, Debug, PartialEq, Eq, Hash)]
pub struct Area {
    /// From one line to the next, 4 to 65,536.
    pub stride: usize,
    /// The samples of a line that are visible, 4 to the stride.
    pub width: usize,
    /// The visible lines, 4 to 65,536.
    pub rows: usize,
}

/// The lossless steps that remain on a plane, in memory that is owned or borrowed: anything that lends slices, such as arrays,
/// `&mut` slices, boxes or vectors. The plane is lent to each call. Nothing else may write to it between the calls.
///
/// In a history that began empty and that only these calls have changed, an undo is never refused while a step remains, and a
/// withdrawal is accepted exactly if its step remains and no later one shares a sample with it.
///
/// ```
/// use panel::{fwht4x4, history_index, Area, History, HISTORY_LEVELS, HISTORY_STEPS};
///
/// let area = Area { stride: 8, width: 8, rows: 8 };
/// let mut steps = [0; HISTORY_STEPS];
/// let mut levels = vec![0; HISTORY_LEVELS];
/// let mut index = [0; history_index(8, 8)];
/// let mut history = History::new(area, &mut steps[..], &mut levels[..], &mut index[..]);
///
/// let mut plane = [100; 64];
/// let mut level = [0; 16];
/// fwht4x4(&[20; 16], &mut level)?; // sixteen samples become 20 brighter
/// let first = history.step(8, &mut plane, 0, 0, &level)?;
/// let second = history.step(8, &mut plane, 4, 4, &level)?;
/// assert_eq!((plane[0], plane[63], history.len()), (120, 120, 2));
/// assert_eq!((history.last_touch(5, 6), history.last_touch(0, 7)), (Some(second), None));
///
/// history.withdraw(&mut plane, first)?; // out of the middle
/// assert_eq!((plane[0], plane[63], history.len()), (100, 120, 1));
/// history.undo(&mut plane)?;
/// assert_eq!(plane, [100; 64]);
/// assert_eq!(history.undo(&mut plane).unwrap_err().number, 13);
/// # Ok::<(), panel::Refusal>(())
/// ```
///
/// It owns what it is given by value. Arrays make it a static, or a part of another structure:
///
/// ```
/// use panel::{history_index, Area, History, HISTORY_LEVELS, HISTORY_STEPS};
/// use std::sync::Mutex;
///
/// static HISTORY: Mutex<History<[u32; HISTORY_STEPS], [i32; HISTORY_LEVELS], [u32; history_index(8, 8)]>> = Mutex::new(
///     History::new(Area { stride: 8, width: 8, rows: 8 }, [0; HISTORY_STEPS], [0; HISTORY_LEVELS], [0; history_index(8, 8)]),
/// );
/// assert!(HISTORY.lock().unwrap().is_empty());
/// ```
#[derive(Clone, Debug, PartialEq, Eq)]
pub struct History<S, L, I> {
    area: Area,
    steps: S,
    levels: L,
    index: I,
}

impl<S, L, I> History<S, L, I> {
    /// The history that stands in this memory, as it is: all zero is the empty one. `steps` has [`HISTORY_STEPS`] numbers,
    /// `levels` [`HISTORY_LEVELS`] and `index` [`history_index`]`(width, rows)`. Every call looks at all of it, and refuses with 5
    /// an area out of range, with 12 memory of the wrong length or contents; [`History::clear`] empties it.
    pub const fn new(area: Area, steps: S, levels: L, index: I) -> Self {
        History { area, steps, levels, index }
    }

    /// The visible area.
    pub const fn area(&self) -> Area {
        self.area
    }

    /// The memory back: steps, levels and index.
    pub fn into_memory(self) -> (S, L, I) {
        (self.steps, self.levels, self.index)
    }
}

impl<S: AsRef<[u32]>, L: AsRef<[i32]>, I: AsRef<[u32]>> History<S, L, I> {
    /// The memory to look at or to save: steps, levels and index.
    pub fn memory(&self) -> (&[u32], &[i32], &[u32]) {
        (self.steps.as_ref(), self.levels.as_ref(), self.index.as_ref())
    }

    /// How many steps remain; of memory with wrong contents at most as many as it has room for.
    pub fn len(&self) -> usize {
        let (steps, levels, _) = self.memory();
        let room = (steps.len().saturating_sub(1) / 4).min(levels.len() / 16);
        steps.first().map_or(0, |&count| room.min(count as usize))
    }

    /// Whether no step remains.
    pub fn is_empty(&self) -> bool {
        self.len() == 0
    }

    /// The remaining steps, from the earliest to the newest.
    ///
    /// ```
    /// # use panel::{Area, History, HISTORY_LEVELS, HISTORY_STEPS};
    /// # let (steps, levels, index) = (vec![0; HISTORY_STEPS], vec![0; HISTORY_LEVELS], vec![0; 4]);
    /// # let mut history = History::new(Area { stride: 8, width: 8, rows: 8 }, steps, levels, index);
    /// # let (mut plane, level) = ([100; 64], [0; 16]);
    /// history.step(8, &mut plane, 0, 0, &level)?;
    /// history.step(8, &mut plane, 4, 2, &level)?;
    /// let places: Vec<_> = history.iter().map(|step| (step.number, step.row, step.column)).collect();
    /// assert_eq!(places, [(1, 0, 0), (2, 4, 2)]);
    /// assert_eq!(history.iter().next_back().map(|newest| newest.number), Some(2));
    /// # Ok::<(), panel::Refusal>(())
    /// ```
    pub fn iter(&self) -> Steps<'_> {
        let (steps, levels, _) = self.memory();
        Steps { steps: steps.get(1..).unwrap_or(&[]), levels, next: 0, end: self.len() }
    }

    /// The number of the latest remaining step that shares a sample with the 4x4 cell in which this sample lies, as the index
    /// has it; none where there is no such step, or where the sample is not visible.
    pub fn last_touch(&self, row: usize, column: usize) -> Option<u32> {
        if row >= self.area.rows || column >= self.area.width {
            return None;
        }
        let cell = (row / 4).checked_mul(cells(self.area.width))?.checked_add(column / 4)?;
        self.index.as_ref().get(cell).copied().filter(|&number| number != 0)
    }

    /// What [`History::withdraw`] would answer.
    ///
    /// # Errors
    ///
    /// 5, 8, 10, 12 or 13 of [`Refusal`].
    pub fn can_withdraw(&self, plane: &[i32], number: u32) -> Result<(), Refusal> {
        let Area { stride, width, rows } = self.area;
        let (steps, levels, index) = self.memory();
        calls::history_can_withdraw(plane, stride, width, rows, number, steps, levels, index)
    }
}

impl<S: AsMut<[u32]>, L: AsMut<[i32]>, I: AsMut<[u32]>> History<S, L, I> {
    /// Takes a lossless step on the block at a row and a column, and remembers it. Gives its number: one more than the largest
    /// that remains, 1 where none remains.
    ///
    /// # Errors
    ///
    /// 1, 5, 6, 7, 8, 10, 12 or 14 of [`Refusal`]; then plane and history are as they were.
    pub fn step(&mut self, depth: u32, plane: &mut [i32], row: usize, column: usize, level: &[i32]) -> Result<u32, Refusal> {
        let Area { stride, width, rows } = self.area;
        let (steps, levels, index) = (self.steps.as_mut(), self.levels.as_mut(), self.index.as_mut());
        calls::history_step(depth, plane, stride, width, rows, row, column, level, steps, levels, index)?;
        // The count is 1 to 4,096 now, and the new entry is the last one.
        Ok(steps[4 * steps[0] as usize - 3])
    }

    /// Undoes the newest remaining step.
    ///
    /// # Errors
    ///
    /// 5, 8, 10, 12 or 13 of [`Refusal`]; then plane and history are as they were.
    pub fn undo(&mut self, plane: &mut [i32]) -> Result<(), Refusal> {
        let Area { stride, width, rows } = self.area;
        let (steps, levels, index) = (self.steps.as_mut(), self.levels.as_mut(), self.index.as_mut());
        calls::history_undo(plane, stride, width, rows, steps, levels, index)
    }

    /// Undoes the remaining step with this number, while later ones remain: none of them may share a sample with it.
    ///
    /// # Errors
    ///
    /// 5, 8, 10, 12 or 13 of [`Refusal`]; then plane and history are as they were.
    pub fn withdraw(&mut self, plane: &mut [i32], number: u32) -> Result<(), Refusal> {
        let Area { stride, width, rows } = self.area;
        let (steps, levels, index) = (self.steps.as_mut(), self.levels.as_mut(), self.index.as_mut());
        calls::history_withdraw(plane, stride, width, rows, number, steps, levels, index)
    }

    /// Folds pairs of remaining steps on one block together, until none is left, and numbers the steps from 1. No sample changes,
    /// and an undo then takes back a folded step as one.
    ///
    /// # Errors
    ///
    /// 5 or 12 of [`Refusal`]; then the history is as it was.
    pub fn fold(&mut self, plane: &[i32]) -> Result<(), Refusal> {
        let Area { stride, width, rows } = self.area;
        let (steps, levels, index) = (self.steps.as_mut(), self.levels.as_mut(), self.index.as_mut());
        calls::history_fold(plane, stride, width, rows, steps, levels, index)
    }

    /// Writes the whole index anew, from the list of steps.
    ///
    /// # Errors
    ///
    /// 5 or 12 of [`Refusal`]; then the index is as it was.
    pub fn rebuild(&mut self, plane: &[i32]) -> Result<(), Refusal> {
        let Area { stride, width, rows } = self.area;
        let (steps, levels, index) = (self.steps.as_mut(), self.levels.as_mut(), self.index.as_mut());
        calls::history_rebuild(plane, stride, width, rows, steps, levels, index)
    }

    /// Forgets every step; the plane stays. An add call on the plane begins a new history: clear the old one with it.
    pub fn clear(&mut self) {
        self.steps.as_mut().fill(0);
        self.levels.as_mut().fill(0);
        self.index.as_mut().fill(0);
    }
}

/// A step that remains.
#[derive(Clone, Copy, Debug, PartialEq, Eq, Hash)]
pub struct Step<'a> {
    /// Its number, by which it can be withdrawn.
    pub number: u32,
    /// Its depth.
    pub depth: u32,
    /// The row of its block.
    pub row: usize,
    /// The column of its block.
    pub column: usize,
    /// Its levels.
    pub level: &'a [i32; 16],
}

/// The remaining steps of a history, from the earliest to the newest.
#[derive(Clone, Debug)]
pub struct Steps<'a> {
    steps: &'a [u32],
    levels: &'a [i32],
    next: usize,
    end: usize,
}

impl<'a> Steps<'a> {
    fn at(&self, i: usize) -> Option<Step<'a>> {
        let entry = self.steps.get(4 * i..4 * i + 4)?;
        let level = self.levels.get(16 * i..16 * i + 16)?.try_into().ok()?;
        Some(Step { number: entry[0], depth: entry[1], row: entry[2] as usize, column: entry[3] as usize, level })
    }
}

impl<'a> Iterator for Steps<'a> {
    type Item = Step<'a>;

    fn next(&mut self) -> Option<Step<'a>> {
        if self.next == self.end {
            return None;
        }
        self.next += 1;
        self.at(self.next - 1)
    }

    fn size_hint(&self) -> (usize, Option<usize>) {
        (self.end - self.next, Some(self.end - self.next))
    }
}

impl DoubleEndedIterator for Steps<'_> {
    fn next_back(&mut self) -> Option<Self::Item> {
        if self.next == self.end {
            return None;
        }
        self.end -= 1;
        self.at(self.end)
    }
}

impl ExactSizeIterator for Steps<'_> {}
impl FusedIterator for Steps<'_> {}

impl<'a, S: AsRef<[u32]>, L: AsRef<[i32]>, I: AsRef<[u32]>> IntoIterator for &'a History<S, L, I> {
    type Item = Step<'a>;
    type IntoIter = Steps<'a>;

    fn into_iter(self) -> Steps<'a> {
        self.iter()
    }
}
