//! A planned table as text.

use crate::PLANNED_WIDTH;

pub fn text(planned: &[u32]) -> Vec<u8> {
    let mut text = format!("plan {}\n", planned.len() / PLANNED_WIDTH);
    for (row, numbers) in planned.chunks(PLANNED_WIDTH).enumerate() {
        text += &format!("row {row} rank {} length {} response {}\n", numbers[0], numbers[1], numbers[2]);
    }
    text.into_bytes()
}
