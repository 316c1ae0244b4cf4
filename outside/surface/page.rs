//! A planned table as text: first measured, then written.

use super::rows::PLANNED_WIDTH;

fn digits(mut value: u32) -> usize {
    let mut count = 1;
    while value >= 10 {
        value /= 10;
        count += 1;
    }
    count
}

/// Takes the parts of the text in order: words, and numbers in decimal.
trait Sink {
    fn word(&mut self, word: &[u8]);
    fn number(&mut self, value: u32);
}

struct Length(usize);

impl Sink for Length {
    fn word(&mut self, word: &[u8]) {
        self.0 += word.len();
    }

    fn number(&mut self, value: u32) {
        self.0 += digits(value);
    }
}

struct Page<'a> {
    buffer: &'a mut [u8],
    at: usize,
}

impl Sink for Page<'_> {
    fn word(&mut self, word: &[u8]) {
        self.buffer[self.at..self.at + word.len()].copy_from_slice(word);
        self.at += word.len();
    }

    fn number(&mut self, mut value: u32) {
        let end = self.at + digits(value);
        for place in self.buffer[self.at..end].iter_mut().rev() {
            *place = b'0' + (value % 10) as u8;
            value /= 10;
        }
        self.at = end;
    }
}

fn text(planned: &[[u32; PLANNED_WIDTH]], sink: &mut impl Sink) {
    sink.word(b"plan ");
    sink.number(planned.len() as u32);
    for (row, [rank, length, response]) in planned.iter().enumerate() {
        sink.word(b"\nrow ");
        sink.number(row as u32);
        sink.word(b" rank ");
        sink.number(*rank);
        sink.word(b" length ");
        sink.number(*length);
        sink.word(b" response ");
        sink.number(*response);
    }
    sink.word(b"\n");
}

pub fn length(planned: &[[u32; PLANNED_WIDTH]]) -> usize {
    let mut length = Length(0);
    text(planned, &mut length);
    length.0
}

pub fn write(planned: &[[u32; PLANNED_WIDTH]], buffer: &mut [u8]) {
    text(planned, &mut Page { buffer, at: 0 });
}
