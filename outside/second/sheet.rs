//! A text sheet: well formed exactly if printing what was read gives its bytes back.

use crate::MOST_ROWS;

/// A task line's times in microseconds, with the start and the length of a middle region or none.
struct Task {
    run: u64,
    deadline: u64,
    spacing: u64,
    region: Option<(u64, u64)>,
}

pub struct Sheet {
    tick: u64,
    tasks: Vec<Task>,
}

impl Task {
    /// Of the numbers behind the line's first word.
    fn of(numbers: &[u64]) -> Option<Task> {
        let (&[run, deadline, spacing], region) = numbers.split_first_chunk()?;
        let region = match region {
            [] => None,
            &[start, length] => Some((start, length)),
            _ => return None,
        };
        let length = region.map(|(_, length)| length);
        let from_1 = [run, deadline, spacing].into_iter().chain(length).all(|us| us >= 1);
        let sound = from_1 && numbers.iter().all(|us| *us <= 1_000_000_000);
        sound.then_some(Task { run, deadline, spacing, region })
    }

    fn text(&self) -> String {
        let region = self.region.map_or(String::new(), |(start, length)| format!(" {start} {length}"));
        format!("task {} {} {}{region}\n", self.run, self.deadline, self.spacing)
    }
}

impl Sheet {
    fn text(&self) -> String {
        format!("tick {}\n", self.tick) + &self.tasks.iter().map(Task::text).collect::<String>()
    }

    /// A run and a region's end in the fewest ticks that are not below it, a deadline, a spacing and
    /// a region's start in the most that are not above.
    pub fn in_ticks(&self) -> Vec<u64> {
        let near = |us: u64| (us / self.tick).saturating_sub(1)..=us / self.tick + 1;
        let fewest = |us: u64| near(us).find(|ticks| ticks * self.tick >= us).unwrap_or(0);
        let most = |us: u64| near(us).rev().find(|ticks| ticks * self.tick <= us).unwrap_or(0);
        let row = |task: &Task| {
            let (start, end) = task.region.map_or((0, 0), |(start, length)| (most(start), fewest(start + length)));
            [fewest(task.run), most(task.deadline), most(task.spacing), start, end - start]
        };
        self.tasks.iter().flat_map(row).collect()
    }
}

/// The numbers of a line; any first word will do, since the text is printed again.
fn numbers(line: &str) -> Option<Vec<u64>> {
    line.split(' ').skip(1).map(|word| word.parse().ok()).collect()
}

pub fn read(text: &[u8]) -> Option<Sheet> {
    let text = std::str::from_utf8(text).ok()?;
    let mut lines = text.lines();
    let tick = match numbers(lines.next()?)?[..] {
        [tick @ 1..=1_000] => tick,
        _ => return None,
    };
    let tasks = lines.map(|line| Task::of(&numbers(line)?)).collect::<Option<Vec<_>>>()?;
    let sheet = Sheet { tick, tasks };
    ((1..=MOST_ROWS).contains(&sheet.tasks.len()) && sheet.text() == text).then_some(sheet)
}

/// Whether some sheet begins with these bytes: if so, one of the ends of two shortest texts
/// completes them. A line that goes on to a region is completed by an end of its other numbers.
fn begins(prefix: &[u8]) -> bool {
    let endings = ["tick 1\ntask 1 1 1\n", "task 1 1 1\n"];
    let tails = endings.iter().flat_map(|whole| (0..=whole.len()).map(|from| &whole.as_bytes()[from..]));
    tails.into_iter().any(|tail| read(&[prefix, tail].concat()).is_some())
}

/// How many bytes of the text are also the first bytes of some sheet. What shares more of them with
/// a sheet shares fewer too, so the number is found by halving.
pub fn longest_beginning(text: &[u8]) -> usize {
    let (mut good, mut bad) = (0, text.len() + 1);
    while bad - good > 1 {
        let middle = good + (bad - good) / 2;
        if begins(&text[..middle]) {
            good = middle;
        } else {
            bad = middle;
        }
    }
    good
}
