//! What an operation hands back over the C surface.

#[repr(C)]
pub struct Answer {
    pub number: u32,
    pub place: u32,
    pub value: u64,
}

/// A refusal's number and place.
pub struct Refusal(pub u32, pub usize);

impl From<Result<u64, Refusal>> for Answer {
    fn from(result: Result<u64, Refusal>) -> Answer {
        match result {
            Ok(value) => Answer { number: 0, place: 0, value },
            Err(Refusal(number, place)) => Answer { number, place: place as u32, value: 0 },
        }
    }
}
