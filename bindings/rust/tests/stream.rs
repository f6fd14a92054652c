//! The recorded stream of the gate (docs/CASES.md) replayed through the crate, and its answers compared byte for byte. The calls
//! on a history run twice: as they are, and through `History`.

mod common;

use common::{Answer, Call, Entry, TABLE};
use panel::{Area, History, Refusal};
use std::collections::BTreeMap;
use std::convert::TryInto;
use std::fs;

const LONGEST: usize = 20_000;
const LONGEST_TRIMMED: usize = 70_000;

/// What is left of a stream. Reading gives nothing where the stream breaks its rules.
struct Stream<'a>(&'a [u8]);

impl Stream<'_> {
    fn word(&mut self) -> Option<u64> {
        let word = self.0.get(..8)?.try_into().ok()?;
        self.0 = &self.0[8..];
        Some(u64::from_le_bytes(word))
    }

    fn size(&mut self) -> Option<usize> {
        Some(self.word()? as usize)
    }

    /// A word that has to be a u32.
    fn narrow(&mut self) -> Option<u32> {
        self.word()?.try_into().ok()
    }

    /// A word that has to be an i32.
    fn signed(&mut self) -> Option<i32> {
        (self.word()? as i64).try_into().ok()
    }

    fn nums(&mut self, count: usize) -> Option<Vec<i32>> {
        let nums = self.0.get(..4 * count)?;
        self.0 = &self.0[4 * count..];
        Some(nums.chunks_exact(4).map(|num| i32::from_le_bytes(num.try_into().unwrap())).collect())
    }

    fn slice(&mut self) -> Option<Vec<i32>> {
        let count = self.size().filter(|&count| count <= LONGEST)?;
        self.nums(count)
    }

    /// A slice of bytes: nums from 0 to 255.
    fn bytes(&mut self) -> Option<Vec<u8>> {
        self.slice()?.into_iter().map(|num| num.try_into().ok()).collect()
    }

    fn trimmed(&mut self) -> Option<Vec<i32>> {
        let count = self.size().filter(|&count| count <= LONGEST_TRIMMED)?;
        let given = self.size().filter(|&given| given <= count)?;
        let mut nums = self.nums(given)?;
        nums.resize(count, 0);
        Some(nums)
    }

    fn trimmed_unsigned(&mut self) -> Option<Vec<u32>> {
        Some(self.trimmed()?.into_iter().map(|num| num as u32).collect())
    }
}

/// The answers, as bytes.
#[derive(Default)]
struct Answers(Vec<u8>);

impl Answers {
    fn word(&mut self, word: u64) {
        self.0.extend(word.to_le_bytes());
    }

    fn answer(&mut self, answer: Answer) {
        let refusal = answer.err().unwrap_or(Refusal { number: 0, slice: 0, place: 0 });
        for word in [refusal.number as u64, refusal.place as u64, refusal.slice as u64] {
            self.word(word);
        }
    }

    fn nums(&mut self, nums: impl IntoIterator<Item = u32>) {
        self.0.extend(nums.into_iter().flat_map(u32::to_le_bytes));
    }

    fn slice(&mut self, slice: &[i32]) {
        self.nums(slice.iter().map(|&num| num as u32));
    }

    fn trimmed(&mut self, slice: impl DoubleEndedIterator<Item = u32> + ExactSizeIterator + Clone) {
        let count = slice.clone().rposition(|num| num != 0).map_or(0, |last| last + 1);
        self.word(count as u64);
        self.nums(slice.take(count));
    }
}

/// The memory of a history, as a stream has it.
#[derive(Clone, Debug, PartialEq)]
struct Memory {
    plane: Vec<i32>,
    steps: Vec<u32>,
    levels: Vec<i32>,
    index: Vec<u32>,
}

impl Memory {
    fn read(stream: &mut Stream) -> Option<Memory> {
        let (plane, steps) = (stream.slice()?, stream.trimmed_unsigned()?);
        let (levels, index) = (stream.trimmed()?, stream.trimmed_unsigned()?);
        Some(Memory { plane, steps, levels, index })
    }

    fn answer(&self, answers: &mut Answers, plane: bool, list: bool, index: bool) {
        if plane {
            answers.slice(&self.plane);
        }
        if list {
            answers.trimmed(self.steps.iter().copied());
            answers.trimmed(self.levels.iter().map(|&num| num as u32));
        }
        if index {
            answers.trimmed(self.index.iter().copied());
        }
    }

    /// Runs a call as it is and through `History`; both leave the same.
    fn run(
        &mut self,
        area: Area,
        call: impl FnOnce(&mut Memory) -> Answer,
        through: impl FnOnce(&mut History<&mut [u32], &mut [i32], &mut [u32]>, &mut [i32]) -> Answer,
    ) -> Answer {
        let mut other = self.clone();
        let mut history = History::new(area, &mut other.steps[..], &mut other.levels[..], &mut other.index[..]);
        let again = through(&mut history, &mut other.plane);
        let (count, listed) = (history.len(), history.iter().count());
        let answer = call(self);
        assert_eq!((answer, &*self), (again, &other));
        assert_eq!(count, listed);
        if answer.is_ok() {
            assert_eq!(count, self.steps[0] as usize);
        }
        answer
    }
}

/// Reads a case after its number, runs it and answers it.
fn case(call: Call, stream: &mut Stream, answers: &mut Answers) -> Option<Answer> {
    let answer;
    match call {
        Call::Recon(run) => {
            let (depth, tx, txtp) = (stream.narrow()?, stream.size()?, stream.size()?);
            let (coeff, pred, out) = (stream.slice()?, stream.slice()?, stream.slice()?);
            let mut out: Vec<f32> = out.into_iter().map(|bits| f32::from_bits(bits as u32)).collect();
            answer = run(&mut out, &coeff, txtp, tx, depth, &pred);
            answers.answer(answer);
            answers.nums(out.into_iter().map(f32::to_bits));
        }
        Call::Add(run) => {
            let (depth, tx, txtp, stride) = (stream.narrow()?, stream.size()?, stream.size()?, stream.size()?);
            let (coeff, mut plane) = (stream.slice()?, stream.slice()?);
            answer = run(&mut plane, stride, &coeff, txtp, tx, depth);
            answers.answer(answer);
            answers.slice(&plane);
        }
        Call::AddBytes(run) => {
            let (depth, tx, txtp, stride) = (stream.narrow()?, stream.size()?, stream.size()?, stream.size()?);
            let (coeff, mut plane) = (stream.slice()?, stream.bytes()?);
            answer = run(&mut plane, stride, &coeff, txtp, tx, depth);
            answers.answer(answer);
            answers.nums(plane.into_iter().map(u32::from));
        }
        Call::Chroma => {
            let (depth, sine, cosine) = (stream.narrow()?, stream.signed()?, stream.signed()?);
            let (mut u, mut v) = (stream.slice()?, stream.slice()?);
            answer = panel::cctx(&mut u, &mut v, sine, cosine, depth);
            answers.answer(answer);
            answers.slice(&u);
            answers.slice(&v);
        }
        Call::Turn(run) => {
            let (from, mut to) = (stream.slice()?, stream.slice()?);
            answer = run(&from, &mut to);
            answers.answer(answer);
            answers.slice(&to);
        }
        Call::Block(run) => {
            let (depth, stride, width) = (stream.narrow()?, stream.size()?, stream.size()?);
            let (row, column) = (stream.size()?, stream.size()?);
            let (level, mut plane) = (stream.slice()?, stream.slice()?);
            answer = run(depth, &mut plane, stride, width, row, column, &level);
            answers.answer(answer);
            answers.slice(&plane);
        }
        Call::BlockBytes(run) => {
            let (depth, stride, width) = (stream.narrow()?, stream.size()?, stream.size()?);
            let (row, column) = (stream.size()?, stream.size()?);
            let (level, mut plane) = (stream.slice()?, stream.bytes()?);
            answer = run(depth, &mut plane, stride, width, row, column, &level);
            answers.answer(answer);
            answers.nums(plane.into_iter().map(u32::from));
        }
        Call::Av1Dct => {
            let (n, bits, mut list) = (stream.size()?, stream.narrow()?, stream.slice()?);
            answer = panel::av1_inv_dct(n, bits, &mut list);
            answers.answer(answer);
            answers.slice(&list);
        }
        Call::Av1Wht => {
            let (bits, mut list) = (stream.narrow()?, stream.slice()?);
            answer = panel::av1_inv_wht4x4(bits, &mut list);
            answers.answer(answer);
            answers.slice(&list);
        }
        _ => answer = remembered(call, stream, answers)?,
    }
    Some(answer)
}

/// A case of a call on a history.
fn remembered(call: Call, stream: &mut Stream, answers: &mut Answers) -> Option<Answer> {
    let depth = if let Call::HistoryStep = call { stream.narrow()? } else { 0 };
    let (stride, width, rows) = (stream.size()?, stream.size()?, stream.size()?);
    let area = Area { stride, width, rows };
    let (row, column) = if let Call::HistoryStep = call { (stream.size()?, stream.size()?) } else { (0, 0) };
    let withdraws = matches!(call, Call::HistoryWithdraw | Call::HistoryCanWithdraw);
    let number = if withdraws { stream.narrow()? } else { 0 };
    let level = if let Call::HistoryStep = call { stream.slice()? } else { Vec::new() };
    let mut memory = Memory::read(stream)?;
    let (answer, plane, list, index) = match call {
        Call::HistoryStep => {
            let answer = memory.run(
                area,
                |m| {
                    let Memory { plane, steps, levels, index } = m;
                    panel::history_step(depth, plane, stride, width, rows, row, column, &level, steps, levels, index)
                },
                |history, plane| {
                    let number = history.step(depth, plane, row, column, &level)?;
                    let newest = history.iter().next_back().expect("a step");
                    assert_eq!((newest.number, newest.depth, newest.row, newest.column), (number, depth, row, column));
                    assert_eq!(&newest.level[..], &level[..]);
                    assert_eq!(history.last_touch(row, column), Some(number));
                    assert_eq!(history.last_touch(row + 3, column + 3), Some(number));
                    Ok(())
                },
            );
            (answer, true, true, true)
        }
        Call::HistoryUndo => {
            let answer = memory.run(
                area,
                |m| panel::history_undo(&mut m.plane, stride, width, rows, &mut m.steps, &mut m.levels, &mut m.index),
                |history, plane| history.undo(plane),
            );
            (answer, true, true, true)
        }
        Call::HistoryWithdraw => {
            let answer = memory.run(
                area,
                |m| {
                    let Memory { plane, steps, levels, index } = m;
                    panel::history_withdraw(plane, stride, width, rows, number, steps, levels, index)
                },
                |history, plane| {
                    let asked = history.can_withdraw(plane, number);
                    let answer = history.withdraw(plane, number);
                    assert_eq!(asked, answer);
                    answer
                },
            );
            (answer, true, true, true)
        }
        Call::HistoryCanWithdraw => {
            let answer = memory.run(
                area,
                |m| panel::history_can_withdraw(&m.plane, stride, width, rows, number, &m.steps, &m.levels, &m.index),
                |history, plane| history.can_withdraw(plane, number),
            );
            (answer, false, false, false)
        }
        Call::HistoryRebuild => {
            let answer = memory.run(
                area,
                |m| panel::history_rebuild(&m.plane, stride, width, rows, &m.steps, &m.levels, &mut m.index),
                |history, plane| history.rebuild(plane),
            );
            (answer, false, false, true)
        }
        _ => {
            let answer = memory.run(
                area,
                |m| panel::history_fold(&m.plane, stride, width, rows, &mut m.steps, &mut m.levels, &mut m.index),
                |history, plane| history.fold(plane),
            );
            (answer, false, true, true)
        }
    };
    answers.answer(answer);
    memory.answer(answers, plane, list, index);
    Some(answer)
}

/// How often a call was accepted, and how often it gave each refusal.
type Tally = BTreeMap<&'static str, BTreeMap<u32, usize>>;

/// Every case of a stream, up to its end or to the first that breaks the rules.
fn replay(bytes: &[u8]) -> (Vec<u8>, Tally) {
    let (mut stream, mut answers, mut tally) = (Stream(bytes), Answers::default(), Tally::new());
    while !stream.0.is_empty() {
        let entry: Option<&Entry> = stream.word().and_then(|number| TABLE.iter().find(|entry| entry.number == number));
        match entry.and_then(|entry| case(entry.call, &mut stream, &mut answers).map(|answer| (entry.name, answer))) {
            Some((name, answer)) => {
                *tally.entry(name).or_default().entry(answer.err().map_or(0, |refusal| refusal.number)).or_insert(0) += 1;
            }
            None => {
                answers.word(u64::MAX);
                break;
            }
        }
    }
    (answers.0, tally)
}

fn recorded(name: &str) -> Vec<u8> {
    let path = format!("{}/../../crates/replay/{}", env!("CARGO_MANIFEST_DIR"), name);
    fs::read(&path).unwrap_or_else(|error| panic!("{}: {}", path, error))
}

#[test]
fn the_recorded_stream_gives_the_recorded_answers() {
    let (given, tally) = replay(&recorded("stdin"));
    let wanted = recorded("stdout");
    let apart = given.iter().zip(&wanted).position(|(a, b)| a != b);
    assert_eq!((given.len(), apart), (wanted.len(), None), "bytes, and the first that differs");
    // Every call occurs, accepted and with every refusal that it can give.
    for entry in TABLE {
        let seen: Vec<u32> = tally.get(entry.name).into_iter().flat_map(|of| of.keys().copied()).collect();
        println!("{:>34} {:?}", entry.name, tally.get(entry.name).unwrap_or(&BTreeMap::new()));
        assert_eq!(seen, [&[0], entry.call.refusals()].concat(), "the answers to {} in the stream; 0 is Done", entry.name);
    }
    let cases: usize = tally.values().flat_map(BTreeMap::values).sum();
    println!("{} cases, {} bytes of answers", cases, given.len());
}

#[test]
fn a_broken_stream_ends_with_a_word_of_ones() {
    let of = |words: &[u64]| replay(&words.iter().flat_map(|word| word.to_le_bytes()).collect::<Vec<_>>()).0;
    assert_eq!(of(&[]), []);
    for broken in [&[99][..], &[6], &[6, 20_001], &[5, 1 << 32, 0, 0, 0, 0], &[5, 8, 1 << 31, 0, 0, 0]] {
        assert_eq!(of(broken), [255; 8]);
    }
    // A step on two bytes, without levels: a byte of 256 is none.
    assert_eq!(of(&[22, 8, 4, 4, 0, 0, 0, 2, 256]), [255; 8]);
    assert_eq!(of(&[22, 8, 4, 4, 0, 0, 0, 2, 255])[..8], [6, 0, 0, 0, 0, 0, 0, 0]);
    assert_eq!(of(&[22, 8, 4, 4, 0, 0, 0, 2, 255])[24..], [255, 0, 0, 0, 0, 0, 0, 0]);
    let turned = of(&[5, 8, 0, u64::MAX, 0, 0, 99]);
    assert_eq!((&turned[..24], &turned[24..]), (&[0; 24][..], &[255; 8][..]));
}
