//! What crosses to the library: the struct of include/wy50_counter.h and its calls.

use crate::{Count, Refusal};

#[repr(C)]
pub struct RawCount {
    units: u64,
    parts: u64,
    place: u64,
    refusal: u8,
}

impl RawCount {
    // The library gives 0 to 4 and no other number.
    pub fn result(self) -> Result<Count, Refusal> {
        match self.refusal {
            0 => Ok(Count { units: self.units, parts: self.parts }),
            1 => Err(Refusal::NoReturn),
            2 => Err(Refusal::BadFirst),
            3 => Err(Refusal::BadLast),
            _ => Err(Refusal::BadByte { place: self.place }),
        }
    }
}

extern "C" {
    fn wy50_counter_version() -> u32;
    fn wy50_count_text(text: *const u8, count: usize) -> RawCount;
    fn wy50_count_reply(reply: *const u8, count: usize, first: usize, last: usize) -> RawCount;
}

pub fn version() -> u32 {
    // SAFETY: it takes and gives numbers alone.
    unsafe { wy50_counter_version() }
}

pub fn count_text(text: &[u8]) -> RawCount {
    // SAFETY: the pointer and the count are those of one slice.
    unsafe { wy50_count_text(text.as_ptr(), text.len()) }
}

pub fn count_reply(reply: &[u8], first: usize, last: usize) -> RawCount {
    // SAFETY: the pointer and the count are those of one slice.
    unsafe { wy50_count_reply(reply.as_ptr(), reply.len(), first, last) }
}
