//! The C interface of the monitor's library, behind safe calls. A slice is a pointer and a length.

use bench::plain::Answer;

#[repr(C)]
struct Outcome {
    refused: u8,
    place: usize,
    count: usize,
}

impl From<Outcome> for Answer {
    fn from(outcome: Outcome) -> Answer {
        Answer { refused: outcome.refused, place: outcome.place, count: outcome.count }
    }
}

extern "C" {
    fn bench_watch(input: *const u8, input_len: usize, output: *mut u8, output_len: usize) -> usize;
    fn bench_read_rules(text: *const u8, len: usize) -> Outcome;
    fn bench_read_states(text: *const u8, len: usize, signals: *mut u32, signals_len: usize) -> usize;
    fn bench_label_dated(text: *const u8, len: usize, again: usize, labels: *mut i16, labels_len: usize) -> Outcome;
    fn bench_label_strips(
        text: *const u8,
        len: usize,
        again: usize,
        weak: *mut u64,
        weak_len: usize,
        strong: *mut u64,
        strong_len: usize,
    ) -> Outcome;
    fn bench_append(text: *const u8, len: usize) -> Outcome;
}

/// What the output of `watch` has not.
#[derive(Debug, Clone, Copy, PartialEq, Eq)]
pub enum Missing {
    /// Room: the output that was lent is too short.
    Room,
    /// Memory to make it in.
    Memory,
}

/// What `bench_watch` answers in place of a count.
const NO_ROOM: usize = usize::MAX;
const NO_MEMORY: usize = usize::MAX - 1;

/// Puts what `watch` prints into `output`, and answers how many bytes.
pub fn watch(input: &[u8], output: &mut [u8]) -> Result<usize, Missing> {
    // SAFETY: the library reads the first slice, and writes the second within its length.
    let count = unsafe { bench_watch(input.as_ptr(), input.len(), output.as_mut_ptr(), output.len()) };
    match count {
        NO_ROOM => Err(Missing::Room),
        NO_MEMORY => Err(Missing::Memory),
        _ => Ok(count),
    }
}

pub fn rules(text: &[u8]) -> Answer {
    // SAFETY: the library reads the slice.
    unsafe { bench_read_rules(text.as_ptr(), text.len()) }.into()
}

pub fn states(text: &[u8], signals: &mut [u32]) -> usize {
    // SAFETY: the library reads the first slice, and writes the second within its length.
    unsafe { bench_read_states(text.as_ptr(), text.len(), signals.as_mut_ptr(), signals.len()) }
}

pub fn label_dated(text: &[u8], again: usize, labels: &mut [i16]) -> Answer {
    // SAFETY: the library reads the first slice, and writes the second within its length.
    unsafe { bench_label_dated(text.as_ptr(), text.len(), again, labels.as_mut_ptr(), labels.len()) }.into()
}

pub fn label_strips(text: &[u8], again: usize, weak: &mut [u64], strong: &mut [u64]) -> Answer {
    let (weak_len, strong_len) = (weak.len(), strong.len());
    // SAFETY: the library reads the first slice, and writes the others, which are apart, within their lengths.
    unsafe {
        bench_label_strips(
            text.as_ptr(),
            text.len(),
            again,
            weak.as_mut_ptr(),
            weak_len,
            strong.as_mut_ptr(),
            strong_len,
        )
    }
    .into()
}

pub fn append(text: &[u8]) -> Answer {
    // SAFETY: the library reads the slice.
    unsafe { bench_append(text.as_ptr(), text.len()) }.into()
}
