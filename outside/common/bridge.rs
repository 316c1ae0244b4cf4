//! The library's operations as called by the bridge program, which lends each slice up to an
//! unreadable page.

use std::io::{self, Read, Write};
use std::process::{Child, ChildStdin, ChildStdout, Command, Stdio};

#[derive(Clone, Copy, Debug, PartialEq, Eq, PartialOrd, Ord)]
pub enum Operation {
    Plan,
    Times,
    Verdict,
    Play,
    Sheet,
    Print,
    Fit,
}

/// One call: the slices lent, in the order of the C parameters, and fit's buffer length.
#[derive(Clone, Debug)]
pub struct Call {
    pub operation: Operation,
    pub slices: Vec<Vec<u8>>,
    pub number: u64,
}

/// What came back, with the slices as the call left them.
#[derive(Debug)]
pub struct Reply {
    pub number: u64,
    pub place: u64,
    pub value: u64,
    pub margins_kept: bool,
    pub nanoseconds: u64,
    pub slices: Vec<Vec<u8>>,
}

pub struct Bridge {
    _child: Child,
    to: ChildStdin,
    from: ChildStdout,
}

impl Bridge {
    /// Starts the bridge program given by its words.
    pub fn start(words: &[String]) -> io::Result<Bridge> {
        let (program, rest) = words.split_first().ok_or_else(|| io::Error::other("no bridge program named"))?;
        let mut child = Command::new(program).args(rest).stdin(Stdio::piped()).stdout(Stdio::piped()).spawn()?;
        let pipes = (child.stdin.take(), child.stdout.take());
        let (Some(to), Some(from)) = pipes else { return Err(io::Error::other("the bridge program has no pipes")) };
        Ok(Bridge { _child: child, to, from })
    }

    /// Makes the call so many times over. An error means that the program ended, as it does when
    /// the library touches a byte that was not lent.
    pub fn call(&mut self, call: &Call, times: u64) -> io::Result<Reply> {
        let head = [call.operation as u64, times, call.number, call.slices.len() as u64];
        let words = head.into_iter().chain(call.slices.iter().map(|s| s.len() as u64));
        let mut request: Vec<u8> = words.flat_map(u64::to_le_bytes).collect();
        request.extend(call.slices.iter().flatten());
        self.to.write_all(&request)?;
        self.to.flush()?;
        let [number, place, value, kept, nanoseconds] = self.words()?;
        let mut slices = call.slices.clone();
        for slice in &mut slices {
            self.from.read_exact(slice)?;
        }
        Ok(Reply { number, place, value, margins_kept: kept == 1, nanoseconds, slices })
    }

    fn words(&mut self) -> io::Result<[u64; 5]> {
        let mut bytes = [0; 40];
        self.from.read_exact(&mut bytes)?;
        let mut words = [0; 5];
        for (word, eight) in words.iter_mut().zip(bytes.chunks_exact(8)) {
            *word = eight.iter().rev().fold(0, |value, byte| value << 8 | u64::from(*byte));
        }
        Ok(words)
    }
}

pub fn bytes(numbers: &[u32]) -> Vec<u8> {
    numbers.iter().flat_map(|v| v.to_le_bytes()).collect()
}

pub fn numbers(bytes: &[u8]) -> Vec<u32> {
    bytes.chunks_exact(4).map(|b| u32::from_le_bytes([b[0], b[1], b[2], b[3]])).collect()
}
