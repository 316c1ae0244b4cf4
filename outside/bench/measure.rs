//! The processor time of a call: the least of many short rounds, all versions taken in turn so that
//! they see the same machine.

use std::io;

use common::bridge::{Bridge, Call, Reply};

const ROUNDS: usize = 20;
const PROCESSES: usize = 3;
const ROUND: u64 = 300_000;

/// A version linked at two places 16 bytes apart, each started several times, and the time is the
/// least of all: where a loop lies against lines of 32 bytes, and where a process has its pages,
/// changes a time by up to a half on some processors.
struct Version(Vec<Bridge>);

impl Version {
    fn start(run: &str, folder: &str, name: &str) -> io::Result<Version> {
        let places = ["bridge", "shifted"].repeat(PROCESSES);
        Ok(Version(
            places.iter().map(|place| started(&format!("{run} {folder}/{place}-{name}"))).collect::<Result<_, _>>()?,
        ))
    }

    fn once(&mut self, call: &Call) -> io::Result<Reply> {
        self.0[0].call(call, 1)
    }

    /// Lowers `least` to what a call takes in one round of so many calls.
    fn round(&mut self, call: &Call, times: u64, least: &mut f64) -> io::Result<()> {
        for bridge in &mut self.0 {
            *least = least.min(bridge.call(call, times)?.nanoseconds as f64 / times as f64);
        }
        Ok(())
    }
}

fn started(words: &str) -> io::Result<Bridge> {
    Bridge::start(&words.split_whitespace().map(String::from).collect::<Vec<_>>())
}

/// The libraries that are measured; the literal search is called once, on its own stack.
pub struct Versions {
    library: Version,
    peer: Version,
    by_marks: Version,
    literal: Bridge,
}

impl Versions {
    pub fn start(run: &str, folder: &str) -> io::Result<Versions> {
        Ok(Versions {
            library: Version::start(run, folder, "product")?,
            peer: Version::start(run, folder, "by_hand")?,
            by_marks: Version::start(run, folder, "by_marks")?,
            literal: started(&format!("{run} {folder}/bridge-literal own-stack"))?,
        })
    }
}

/// Nanoseconds of one input or of several together, and how many of them were not refused. The
/// literal search has none where it was given up or not tried.
#[derive(Default)]
pub struct Times {
    pub given: usize,
    pub library: f64,
    pub peer: f64,
    pub by_marks: f64,
    pub literal: Option<f64>,
}

fn same(one: &Reply, other: &Reply) -> bool {
    (one.number, one.place, one.value, &one.slices) == (other.number, other.place, other.value, &other.slices)
}

/// All inputs together. The versions must answer alike; the literal search may instead have been
/// given up.
pub fn measure(versions: &mut Versions, calls: &[Call], with_literal: bool) -> io::Result<Times> {
    let mut times = Times { literal: with_literal.then_some(0.0), ..Times::default() };
    for call in calls {
        let answer = versions.library.once(call)?;
        let by_hand = versions.peer.once(call)?;
        if !same(&answer, &by_hand) || !same(&answer, &versions.by_marks.once(call)?) {
            return Err(io::Error::other(format!("the library and a hand-written version differ on {call:?}")));
        }
        times.given += usize::from(answer.number == 0);
        let calls = (ROUND / by_hand.nanoseconds.max(1)).clamp(1, 1_000);
        let [mut library, mut peer, mut by_marks] = [f64::INFINITY; 3];
        for _ in 0..ROUNDS {
            versions.library.round(call, calls, &mut library)?;
            versions.peer.round(call, calls, &mut peer)?;
            versions.by_marks.round(call, calls, &mut by_marks)?;
        }
        times.library += library;
        times.peer += peer;
        times.by_marks += by_marks;
        if let Some(so_far) = times.literal {
            let literal = versions.literal.call(call, 1)?;
            let ended = same(&answer, &literal);
            times.literal = ended.then_some(so_far + literal.nanoseconds as f64);
        }
    }
    Ok(times)
}
