//! The calls that the monitor's library offers, answered by the plain implementation.

use super::{label_whole, read_rules, read_state, Dated, Fault, Kind, Monitor, Refusal, State, Strip};
use std::hint::black_box;

/// A refusal's number and place, 0 and 0 if nothing was refused; and a count, 0 if a call brought nothing.
#[derive(Clone, Copy, Debug, Default, PartialEq, Eq)]
pub struct Answer {
    pub refused: u8,
    pub place: usize,
    pub count: usize,
}

impl Answer {
    fn count(count: usize) -> Answer {
        Answer { count, ..Answer::default() }
    }
}

impl From<Fault> for Answer {
    fn from(fault: Fault) -> Answer {
        Answer { refused: fault.number, place: fault.line, count: 0 }
    }
}

impl From<Refusal> for Answer {
    fn from(refusal: Refusal) -> Answer {
        Answer { refused: refusal.number(), place: refusal.place(), count: 0 }
    }
}

fn told(answer: Result<usize, Answer>) -> Answer {
    answer.map_or_else(|refused| refused, Answer::count)
}

/// How many bytes a rules text takes.
pub fn rules(text: &[u8]) -> Answer {
    told(read_rules(text).map(|(_, used)| used).map_err(Answer::from))
}

/// The states of the leading lines that pass, each read after the count of those before it.
pub fn leading_states(text: &[u8]) -> Vec<State> {
    let mut states = Vec::new();
    let mut rest = text;
    while let Ok((state, used)) = read_state(rest, states.len()) {
        states.push(state);
        rest = &rest[used..];
    }
    states
}

/// How many leading lines pass; their signals are put into `signals` as far as it has room.
pub fn states(text: &[u8], signals: &mut [u32]) -> usize {
    let mut count = 0;
    let mut rest = text;
    while let Ok((state, used)) = read_state(rest, count) {
        if let Some(place) = signals.get_mut(count) {
            *place = state.signals;
        }
        count += 1;
        rest = &rest[used..];
    }
    count
}

/// Reads a rules text and the states after it, and labels them whole `again` times more than once, in dated labels.
pub fn label_dated(text: &[u8], again: usize, labels: &mut [Dated]) -> Answer {
    told(labelled(text, again, labels))
}

/// The same in strips.
pub fn label_strips(text: &[u8], again: usize, labels: &mut [Strip]) -> Answer {
    told(labelled(text, again, labels))
}

fn labelled<K: Kind>(text: &[u8], again: usize, labels: &mut [K]) -> Result<usize, Answer> {
    let (table, used) = read_rules(text)?;
    let states = leading_states(&text[used..]);
    let mut work = vec![K::OPEN; labels.len()];
    let mut count = 0;
    for _ in 0..=again {
        count = label_whole(black_box(&table), black_box(&states), labels, &mut work)?;
    }
    Ok(count)
}

/// Appends the states after a rules text to a new monitor, until one is refused; counts those accepted.
pub fn append(text: &[u8]) -> Answer {
    let (table, used) = match read_rules(text) {
        Ok(read) => read,
        Err(fault) => return fault.into(),
    };
    let mut monitor = Monitor::new(table);
    let mut rest = &text[used..];
    while let Ok((state, used)) = read_state(rest, monitor.count()) {
        if let Err(refusal) = monitor.append(state) {
            return Answer { count: monitor.count(), ..refusal.into() };
        }
        rest = &rest[used..];
    }
    Answer::count(monitor.count())
}
