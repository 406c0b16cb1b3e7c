//! Each call of the library held against the plain implementation.

use crate::ffi::{self, Missing};
use bench::plain::{calls, watch, Answer, Dated, Strip};
use std::fmt::Debug;

const SENTINEL: u8 = 0xA5;
const SPARE: usize = 7;

pub const CALLS: [&str; 5] = ["watch", "rules", "dated labels", "strips", "append"];

/// Two answers that are not the same.
pub struct Difference {
    pub call: String,
    pub ours: String,
    pub plain: String,
}

/// How often each call gave each refusal, 0 for none.
#[derive(Default)]
pub struct Counts {
    pub by_call: [[usize; 16]; CALLS.len()],
    /// The refusal that `watch` gave last.
    pub watched: u8,
}

impl Counts {
    fn note(&mut self, call: usize, refused: u8) {
        self.by_call[call][usize::from(refused)] += 1;
    }

    pub fn compare(&mut self, input: &[u8]) -> Result<(), Difference> {
        self.watch(input)?;
        self.compare_labels(input)?;
        let append = same("bench_append", ffi::append(input), calls::append(input))?;
        self.note(4, append.refused);
        Ok(())
    }

    /// All but the calls that append state by state.
    pub fn compare_labels(&mut self, input: &[u8]) -> Result<(), Difference> {
        let rules = same("bench_read_rules", ffi::rules(input), calls::rules(input))?;
        self.note(1, rules.refused);
        states(input)?;
        states(trace_part(input, rules))?;
        self.dated(input, rules)?;
        self.strips(input, rules)
    }

    fn watch(&mut self, input: &[u8]) -> Result<(), Difference> {
        let wanted = watch(input);
        self.watched = last_refusal(&wanted);
        self.note(0, self.watched);
        for (call, room) in [("bench_watch", wanted.len()), ("bench_watch, more room", wanted.len() + SPARE)] {
            let mut output = vec![SENTINEL; room];
            let count = ffi::watch(input, &mut output);
            same_bytes(call, &output[..count.unwrap_or(0).min(room)], &wanted)?;
            same(call, count.ok(), Some(wanted.len()))?;
            same(call, &output[wanted.len()..], &vec![SENTINEL; room - wanted.len()])?;
            if input.len() > 4096 {
                break;
            }
        }
        same("bench_watch, no room", ffi::watch(input, &mut []).err(), Some(Missing::Room))?;
        let short = vec![SENTINEL; wanted.len() - 1];
        let mut output = short.clone();
        same("bench_watch, one byte short", ffi::watch(input, &mut output).err(), Some(Missing::Room))?;
        same_bytes("bench_watch, one byte short", &output, &short)
    }

    fn dated(&mut self, input: &[u8], rules: Answer) -> Result<(), Difference> {
        const PAST: i16 = 12_345;
        let cells = cells(input, rules);
        for (room, again) in [(cells, 0), (cells.saturating_sub(1), 0), (cells + SPARE, 1)] {
            let call = format!("bench_label_dated, {room} cells, {again} again");
            let mut labels = vec![PAST; room];
            let mut wanted = vec![Dated(PAST); room];
            let answer = calls::label_dated(input, again, &mut wanted);
            let answer = same(&call, ffi::label_dated(input, again, &mut labels), answer)?;
            let wanted: Vec<i16> = wanted.iter().map(|label| label.0).collect();
            same_cells(&call, &labels, &wanted)?;
            self.note(2, answer.refused);
        }
        Ok(())
    }

    fn strips(&mut self, input: &[u8], rules: Answer) -> Result<(), Difference> {
        const PAST: Strip = Strip { weak: 12_345, strong: 67_890 };
        let cells = cells(input, rules);
        let few = cells.saturating_sub(1);
        for (weak_room, strong_room, again) in
            [(cells, cells, 0), (few, cells, 0), (cells, few, 0), (cells + SPARE, cells + SPARE - 1, 1)]
        {
            let call = format!("bench_label_strips, {weak_room} and {strong_room} cells, {again} again");
            let mut weak = vec![PAST.weak; weak_room];
            let mut strong = vec![PAST.strong; strong_room];
            let mut wanted = vec![PAST; weak_room.min(strong_room)];
            let answer = calls::label_strips(input, again, &mut wanted);
            let answer = same(&call, ffi::label_strips(input, again, &mut weak, &mut strong), answer)?;
            wanted.resize(weak_room.max(strong_room), PAST);
            let wanted_weak: Vec<u64> = wanted.iter().map(|label| label.weak).take(weak_room).collect();
            let wanted_strong: Vec<u64> = wanted.iter().map(|label| label.strong).take(strong_room).collect();
            same_cells(&call, &weak, &wanted_weak)?;
            same_cells(&call, &strong, &wanted_strong)?;
            self.note(3, answer.refused);
        }
        Ok(())
    }
}

fn states(text: &[u8]) -> Result<(), Difference> {
    const PAST: u32 = 0xDEAD_BEEF;
    for room in [300, 5] {
        let call = format!("bench_read_states, {room} signals, of {}", text.escape_ascii());
        let (mut ours, mut plain) = (vec![PAST; room], vec![PAST; room]);
        same(&call, ffi::states(text, &mut ours), calls::states(text, &mut plain))?;
        same_cells(&call, &ours, &plain)?;
    }
    Ok(())
}

/// What follows the rules text; if that is refused, what follows the first line end before `s=1 `.
fn trace_part(input: &[u8], rules: Answer) -> &[u8] {
    let start = if rules.refused == 0 { Some(rules.count) } else { input.windows(4).position(|w| w == b"s=1 ") };
    &input[start.unwrap_or(0)..]
}

/// How many cells the labels of the input take.
fn cells(input: &[u8], rules: Answer) -> usize {
    if rules.refused != 0 {
        return SPARE;
    }
    let formulas = bench::plain::read_rules(input).map_or(0, |(table, _)| table.formulas().len());
    formulas * calls::states(trace_part(input, rules), &mut [])
}

/// The number of the last line, if it tells a refusal.
fn last_refusal(output: &[u8]) -> u8 {
    let text = String::from_utf8_lossy(output);
    let number = |line: &str| line.strip_prefix("refused=")?.split(' ').next()?.parse().ok();
    text.lines().last().and_then(number).unwrap_or(0)
}

fn same<T: PartialEq + Debug>(call: &str, ours: T, plain: T) -> Result<T, Difference> {
    if ours == plain {
        return Ok(ours);
    }
    Err(Difference { call: call.to_string(), ours: format!("{ours:?}"), plain: format!("{plain:?}") })
}

fn same_bytes(call: &str, ours: &[u8], plain: &[u8]) -> Result<(), Difference> {
    if ours == plain {
        return Ok(());
    }
    let (ours, plain) = (ours.escape_ascii().to_string(), plain.escape_ascii().to_string());
    Err(Difference { call: call.to_string(), ours, plain })
}

fn same_cells<T: PartialEq + Debug>(call: &str, ours: &[T], plain: &[T]) -> Result<(), Difference> {
    match ours.iter().zip(plain).position(|(a, b)| a != b) {
        None => Ok(()),
        Some(at) => same(&format!("{call}, cell {at}"), &ours[at], &plain[at]).map(|_| ()),
    }
}
