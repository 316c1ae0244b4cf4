//! A text sheet read in one pass: each step takes one more part of the text or says where the text
//! went wrong.

use super::answer::Refusal;
use super::checks;
use super::rows::{Task, MOST_ROWS, ROW_WIDTH};

const MOST_NUMBERS: usize = ROW_WIDTH * MOST_ROWS;
const MOST_TICK: u64 = 1_000;
const MOST_TIME: u64 = 1_000_000_000;

/// What is left to read, by its place.
struct Cursor<'a> {
    text: &'a [u8],
    at: usize,
}

impl Cursor<'_> {
    fn here(&self) -> Option<u8> {
        self.text.get(self.at).copied()
    }

    fn word(&mut self, word: &[u8]) -> Result<(), Refusal> {
        for byte in word {
            if self.here() != Some(*byte) {
                return Err(Refusal(9, self.at));
            }
            self.at += 1;
        }
        Ok(())
    }

    /// A number from 1 to `most`.
    fn number(&mut self, most: u64) -> Result<u64, Refusal> {
        let mut value = 0;
        while let Some(digit @ b'0'..=b'9') = self.here() {
            let longer = value * 10 + u64::from(digit - b'0');
            if longer == 0 || longer > most {
                break;
            }
            value = longer;
            self.at += 1;
        }
        if value == 0 {
            return Err(Refusal(9, self.at));
        }
        Ok(value)
    }

    /// A number from 0 to `most`.
    fn number_or_0(&mut self, most: u64) -> Result<u64, Refusal> {
        if self.here() == Some(b'0') {
            self.at += 1;
            return Ok(0);
        }
        self.number(most)
    }

    /// A task line in ticks: a run and a region's end are rounded up, a deadline, a spacing and a
    /// region's start down.
    fn task(&mut self, tick: u64) -> Result<Task, Refusal> {
        let up = |time: u64| (time + tick - 1) / tick;
        let down = |time: u64| time / tick;
        self.word(b"task ")?;
        let c = up(self.number(MOST_TIME)?);
        self.word(b" ")?;
        let d = down(self.number(MOST_TIME)?);
        self.word(b" ")?;
        let t = down(self.number(MOST_TIME)?);
        let (mut start, mut end) = (0, 0);
        if self.here() == Some(b' ') {
            self.at += 1;
            let from = self.number_or_0(MOST_TIME)?;
            self.word(b" ")?;
            let length = self.number(MOST_TIME)?;
            (start, end) = (down(from), up(from + length));
        }
        self.word(b"\n")?;
        Ok([c, d, t, start, end - start].map(|ticks| ticks as u32))
    }
}

pub fn table(text: &[u8]) -> Result<([u32; MOST_NUMBERS], usize), Refusal> {
    let mut cursor = Cursor { text, at: 0 };
    cursor.word(b"tick ")?;
    let tick = cursor.number(MOST_TICK)?;
    cursor.word(b"\n")?;
    let mut table = [0; MOST_NUMBERS];
    let mut length = 0;
    while length == 0 || cursor.at < text.len() {
        if length == MOST_NUMBERS {
            return Err(Refusal(9, cursor.at));
        }
        table[length..][..ROW_WIDTH].copy_from_slice(&cursor.task(tick)?);
        length += ROW_WIDTH;
    }
    checks::table(&table[..length])?;
    Ok((table, length))
}
