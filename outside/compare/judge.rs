//! Holds the library's answers against the second planner's, and each lent slice against a copy.

use crate::causes;
use crate::counts::Counts;
use crate::traits;
use common::bridge::{bytes, numbers, Bridge, Call, Operation, Reply};
use common::random::Random;
use common::widths::{jobs_of, rows_of, PLANNED_WIDTH};
use second::{Answer, Refusal};

/// What a given answer comes to: its value, and the front of the output.
type Given = (u64, Vec<u8>);

pub struct Judge {
    bridge: Bridge,
    noise: Random,
    pub counts: Counts,
    pub calls: u64,
    pub faults: u64,
}

const MOST_FAULTS: u64 = 5;

impl Judge {
    pub fn new(bridge: Bridge, counts: Counts) -> Judge {
        Judge { bridge, noise: Random(0x0015_E0FF), counts, calls: 0, faults: 0 }
    }

    /// Shows a fault; after a few there is no point in going on.
    pub fn fault(&mut self, what: impl FnOnce() -> String) {
        println!("FAULT: {}", what());
        self.faults += 1;
        if self.faults == MOST_FAULTS {
            println!("compare: {} calls, {} faults, and left there", self.calls, self.faults);
            std::process::exit(1);
        }
    }

    fn output(&mut self, length: usize) -> Vec<u8> {
        (0..length).map(|_| self.noise.next() as u8).collect()
    }

    fn ask(&mut self, call: &Call) -> Reply {
        self.calls += 1;
        self.bridge.call(call, 1).unwrap_or_else(|_| {
            println!("FAULT: the library ended its process, as on a byte that was not lent, in {}", show(call));
            std::process::exit(1)
        })
    }

    /// Calls, and returns what was given if all is as expected. The output, where there is one, is
    /// the last slice.
    fn hold(&mut self, call: Call, has_output: bool, expected: Answer<Given>) -> Option<Given> {
        let reply = self.ask(&call);
        let kind = expected.as_ref().map_or_else(|r| format!("refused {}", r.number), |_| "given".into());
        self.counts.add(format!("{:?} {kind}", call.operation));
        let (answer, front) = match &expected {
            Ok((value, front)) => ((0, 0, *value), front.as_slice()),
            Err(Refusal { number, place }) => ((u64::from(*number), u64::from(*place), 0), &[][..]),
        };
        let mut slices = call.slices.clone();
        if let Some(output) = slices.last_mut().filter(|_| has_output) {
            output[..front.len()].copy_from_slice(front);
        }
        if (reply.number, reply.place, reply.value) != answer || reply.slices != slices || !reply.margins_kept {
            self.fault(|| {
                format!("{}\n  expected {answer:?} {}\n  answered {}", show(&call), all(&slices), told(&reply))
            });
            return None;
        }
        expected.ok()
    }

    /// Counts the cause of a refusal that has several, where it is the only one at its place.
    fn count_cause<T>(
        &mut self,
        operation: Operation,
        expected: &Answer<T>,
        number: u32,
        causes: impl Fn(usize) -> Vec<&'static str>,
    ) {
        if let Err(refusal) = expected {
            if refusal.number == number {
                if let [cause] = causes(refusal.place as usize)[..] {
                    self.counts.add(cause_of(operation, number, cause));
                }
            }
        }
    }

    pub fn plan(&mut self, table: &[u32], room: usize) -> Option<Vec<u32>> {
        let slices = vec![bytes(table), self.output(4 * room)];
        let expected = second::plan(table, room).map(|out| (out.len() as u64, bytes(&out)));
        self.count_cause(Operation::Plan, &expected, 3, |place| causes::of_table(table, place));
        Some(numbers(&self.hold(Call { operation: Operation::Plan, slices, number: 0 }, true, expected)?.1))
    }

    pub fn times(&mut self, table: &[u32], plan: &[u32], room: usize) -> Option<Vec<u32>> {
        let slices = vec![bytes(table), bytes(plan), self.output(4 * room)];
        let expected = second::times(table, plan, room).map(|out| (out.len() as u64, bytes(&out)));
        self.count_cause(Operation::Times, &expected, 3, |place| causes::of_table(table, place));
        self.count_cause(Operation::Times, &expected, 6, |row| causes::of_plan(table, plan, row));
        Some(numbers(&self.hold(Call { operation: Operation::Times, slices, number: 0 }, true, expected)?.1))
    }

    pub fn verdict(&mut self, table: &[u32], plan: &[u32]) -> Option<bool> {
        let slices = vec![bytes(table), bytes(plan)];
        let expected = second::verdict(table, plan).map(|yes| (u64::from(yes), vec![]));
        self.count_cause(Operation::Verdict, &expected, 3, |place| causes::of_table(table, place));
        self.count_cause(Operation::Verdict, &expected, 6, |row| causes::of_plan(table, plan, row));
        let yes = self.hold(Call { operation: Operation::Verdict, slices, number: 0 }, false, expected)?.0 == 1;
        self.counts.add(if yes { "Verdict yes" } else { "Verdict no" });
        Some(yes)
    }

    pub fn play(&mut self, table: &[u32], plan: &[u32], jobs: &[u32], room: usize) -> Option<Vec<u32>> {
        let expected = second::play(table, plan, jobs, room);
        self.count_cause(Operation::Play, &expected, 3, |place| causes::of_table(table, place));
        self.count_cause(Operation::Play, &expected, 6, |row| causes::of_plan(table, plan, row));
        self.count_cause(Operation::Play, &expected, 8, |job| causes::of_job(table, jobs, job));
        self.play_expecting(table, plan, jobs, room, expected)
    }

    pub fn play_expecting(
        &mut self,
        table: &[u32],
        plan: &[u32],
        jobs: &[u32],
        room: usize,
        expected: Answer<Vec<u32>>,
    ) -> Option<Vec<u32>> {
        let slices = vec![bytes(table), bytes(plan), bytes(jobs), self.output(4 * room)];
        let expected = expected.map(|out| (out.len() as u64, bytes(&out)));
        Some(numbers(&self.hold(Call { operation: Operation::Play, slices, number: 0 }, true, expected)?.1))
    }

    pub fn sheet(&mut self, text: &[u8], room: usize) -> Option<Vec<u32>> {
        let slices = vec![text.to_vec(), self.output(4 * room)];
        let expected = second::sheet(text, room).map(|out| (out.len() as u64, bytes(&out)));
        self.count_cause(Operation::Sheet, &expected, 9, |place| vec![causes::of_sheet(text, place)]);
        self.count_cause(Operation::Sheet, &expected, 3, |place| vec![causes::of_ticks(text, place)]);
        let given = self.hold(Call { operation: Operation::Sheet, slices, number: 0 }, true, expected)?.1;
        traits::of_sheet(&mut self.counts, text);
        Some(numbers(&given))
    }

    pub fn print(&mut self, planned: &[u32], room: usize) -> Option<Vec<u8>> {
        let slices = vec![bytes(planned), self.output(room)];
        let expected = second::print(planned, room).map(|text| (text.len() as u64, text));
        Some(self.hold(Call { operation: Operation::Print, slices, number: 0 }, true, expected)?.1)
    }

    pub fn fit(&mut self, planned: &[u32], room: u64) -> Option<u64> {
        let slices = vec![bytes(planned)];
        let room_here = usize::try_from(room).unwrap_or(usize::MAX);
        let expected = second::print(planned, room_here).map(|text| (text.len() as u64, vec![]));
        Some(self.hold(Call { operation: Operation::Fit, slices, number: room }, false, expected)?.0)
    }

    /// The library's own answer, for inputs too large for the second planner; the slices are held
    /// all the same. The output is the last slice, and the answer fills it.
    fn alone(&mut self, call: Call) -> Answer<Vec<u32>> {
        let reply = self.ask(&call);
        let given = reply.number == 0;
        let inputs = call.slices.len() - 1;
        let output = &reply.slices[inputs];
        let kept = reply.slices[..inputs] == call.slices[..inputs] && (given || *output == call.slices[inputs]);
        let value = if given { output.len() as u64 / 4 } else { 0 };
        if !kept || !reply.margins_kept || reply.value != value {
            self.fault(|| format!("{}\n  answered {}", show(&call), told(&reply)));
        }
        if given {
            Ok(numbers(output))
        } else {
            Err(Refusal { number: reply.number as u32, place: reply.place as u32 })
        }
    }

    pub fn plan_alone(&mut self, table: &[u32]) -> Answer<Vec<u32>> {
        let slices = vec![bytes(table), self.output(4 * PLANNED_WIDTH * rows_of(table))];
        self.alone(Call { operation: Operation::Plan, slices, number: 0 })
    }

    pub fn play_alone(&mut self, table: &[u32], plan: &[u32], jobs: &[u32]) -> Answer<Vec<u32>> {
        let slices = vec![bytes(table), bytes(plan), bytes(jobs), self.output(4 * jobs_of(jobs))];
        self.alone(Call { operation: Operation::Play, slices, number: 0 })
    }
}

/// The kind of case that a refusal with this cause is.
pub fn cause_of(operation: Operation, number: u32, cause: &str) -> String {
    format!("{operation:?} refused {number}: {cause}")
}

/// Slices as numbers, or as text where they are text, cut where they are long.
fn all(slices: &[Vec<u8>]) -> String {
    let shown = |slice: &Vec<u8>| {
        let text = std::str::from_utf8(slice).ok().filter(|text| !text.contains('\0'));
        let whole = text.map_or_else(|| format!("{:?}", numbers(slice)), |text| format!("{text:?}"));
        whole.chars().take(600).collect::<String>()
    };
    slices.iter().map(shown).collect::<Vec<_>>().join(" ")
}

fn show(call: &Call) -> String {
    let slices = all(&call.slices);
    if call.operation == Operation::Fit {
        format!("Fit {slices} {}", call.number)
    } else {
        format!("{:?} {slices}", call.operation)
    }
}

fn told(reply: &Reply) -> String {
    let margins = if reply.margins_kept { "" } else { " and wrote in front of a slice" };
    format!("({}, {}, {}) {}{margins}", reply.number, reply.place, reply.value, all(&reply.slices))
}
