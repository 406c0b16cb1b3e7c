//! Which states may stand in a log, and why a call is not carried out.

use super::{Link, State};

/// Why the monitor declines a call. States are counted from 1.
#[derive(Clone, Copy, Debug, PartialEq, Eq)]
pub enum Refusal {
    TooManyStates,
    ShortMemory,
    NominalTaken { state: usize },
    UnfitReference { state: usize },
    NoSuch,
    Loose,
    NoState,
    NoPoint,
}

impl Refusal {
    pub fn number(self) -> u8 {
        match self {
            Refusal::TooManyStates => 7,
            Refusal::ShortMemory => 9,
            Refusal::NominalTaken { .. } => 10,
            Refusal::UnfitReference { .. } => 11,
            Refusal::NoSuch => 12,
            Refusal::Loose => 13,
            Refusal::NoState => 14,
            Refusal::NoPoint => 15,
        }
    }

    pub fn place(self) -> usize {
        match self {
            Refusal::NominalTaken { state } | Refusal::UnfitReference { state } => state,
            _ => 0,
        }
    }
}

/// The nominals of a log's states so far.
pub struct Nominals {
    taken: [bool; 256],
}

impl Nominals {
    pub fn new() -> Nominals {
        Nominals { taken: [false; 256] }
    }

    /// Lets the next state follow, if it may.
    pub fn admit(&mut self, state: &State, number: usize) -> Result<(), Refusal> {
        let nominal = usize::from(state.mark);
        if nominal != 0 && self.taken[nominal] {
            return Err(Refusal::NominalTaken { state: number });
        }
        if state.links.iter().any(|&link| is_unfit(link, number)) {
            return Err(Refusal::UnfitReference { state: number });
        }
        self.taken[nominal] = true;
        Ok(())
    }
}

impl Default for Nominals {
    fn default() -> Nominals {
        Nominals::new()
    }
}

fn is_unfit(link: Link, state: usize) -> bool {
    match link.kind {
        0 => link.target != 0,
        1..=15 => link.target == 0 || usize::from(link.target) >= state,
        _ => true,
    }
}

/// Tells the first state of a log that may not stand there.
pub fn check(states: &[State]) -> Result<(), Refusal> {
    let mut nominals = Nominals::new();
    (1..).zip(states).try_for_each(|(number, state)| nominals.admit(state, number))
}

/// Tells why a state may not follow those.
pub fn check_next(states: &[State], state: &State) -> Result<(), Refusal> {
    let number = states.len() + 1;
    if state.mark != 0 && states.iter().any(|earlier| earlier.mark == state.mark) {
        return Err(Refusal::NominalTaken { state: number });
    }
    if state.links.iter().any(|&link| is_unfit(link, number)) {
        return Err(Refusal::UnfitReference { state: number });
    }
    Ok(())
}
