//! The live monitor: it labels its log whole at each append.

use super::kinds::Reading;
use super::lawful::{self, Refusal};
use super::{label_whole, Dated, Kind, Rule, State, Table};
use super::{MOST_FORMULAS, MOST_RULES, MOST_STATES};

#[derive(Clone, Copy, Debug, Default, PartialEq, Eq)]
pub struct Tally {
    pub raised: usize,
    pub open: usize,
    pub fulfilled: usize,
    pub violated: usize,
}

#[derive(Clone, Copy, Debug, PartialEq, Eq)]
pub enum Standing {
    NotRaised,
    Open,
    Fulfilled { date: usize },
    Violated { date: usize },
}

#[derive(Clone, Copy, Debug, PartialEq, Eq)]
pub enum Event {
    Raised,
    Fulfilled,
    Violated,
}

#[derive(Clone, Copy, Debug, PartialEq, Eq)]
pub struct Notice {
    pub rule: usize,
    pub from: usize,
    pub event: Event,
}

pub struct Monitor {
    table: Table,
    states: Vec<State>,
    labels: Vec<Dated>,
    work: Vec<Dated>,
    tallies: [Tally; MOST_RULES],
}

impl Monitor {
    pub fn new(table: Table) -> Monitor {
        Monitor {
            table,
            states: Vec::with_capacity(MOST_STATES),
            labels: vec![Dated::OPEN; MOST_FORMULAS * MOST_STATES],
            work: vec![Dated::OPEN; MOST_FORMULAS * MOST_STATES],
            tallies: [Tally::default(); MOST_RULES],
        }
    }

    pub fn count(&self) -> usize {
        self.states.len()
    }

    /// Takes the state as the next one of the log, and answers its number.
    pub fn append(&mut self, state: State) -> Result<usize, Refusal> {
        if self.states.len() == MOST_STATES {
            return Err(Refusal::TooManyStates);
        }
        lawful::check_next(&self.states, &state)?;
        self.states.push(state);
        let count = label_whole(&self.table, &self.states, &mut self.labels, &mut self.work)?;
        for (number, &rule) in self.table.rules().iter().enumerate() {
            self.tallies[number] = self.counted(rule);
        }
        Ok(count)
    }

    /// What formula `formula` reads at a state at a truncation point.
    pub fn label(&self, formula: usize, state: usize, point: usize) -> Result<Reading, Refusal> {
        if formula >= self.table.formulas().len() {
            return Err(Refusal::NoSuch);
        }
        if self.table.is_loose(formula) {
            return Err(Refusal::Loose);
        }
        self.check_place(state, point)?;
        Ok(self.row(formula)[state - 1].reading(point))
    }

    pub fn standing(&self, rule: usize, state: usize, point: usize) -> Result<Standing, Refusal> {
        let rule = *self.table.rules().get(rule).ok_or(Refusal::NoSuch)?;
        self.check_place(state, point)?;
        let (condition, content) = (self.row(rule.when)[state - 1], self.row(rule.expect)[state - 1]);
        Ok(stands(condition, content, state, point))
    }

    pub fn tally(&self, rule: usize) -> Result<Tally, Refusal> {
        self.tallies[..self.table.rules().len()].get(rule).copied().ok_or(Refusal::NoSuch)
    }

    /// The notice of a point with this number, counted from 0, if there are so many.
    pub fn notice(&self, point: usize, number: usize) -> Result<Option<Notice>, Refusal> {
        if point == 0 || point > self.count() {
            return Err(Refusal::NoPoint);
        }
        Ok(self.notices(point).nth(number))
    }

    /// The notices of a point, in order; there are none of a point that is not accepted.
    pub fn notices(&self, point: usize) -> impl Iterator<Item = Notice> + '_ {
        let rules = self.table.rules().iter().enumerate();
        rules.flat_map(move |(number, &rule)| self.notices_of(number, rule, point))
    }

    fn notices_of(&self, number: usize, rule: Rule, point: usize) -> impl Iterator<Item = Notice> + '_ {
        let labels = self.row(rule.when).iter().zip(self.row(rule.expect));
        (1..=point).zip(labels).flat_map(move |(from, (&condition, &content))| {
            let raised = (condition.truth() == Some(from)).then_some(Event::Raised);
            let decided = match stands(condition, content, from, point) {
                Standing::Fulfilled { date } if date == point => Some(Event::Fulfilled),
                Standing::Violated { date } if date == point => Some(Event::Violated),
                _ => None,
            };
            let events = [raised.filter(|_| from == point), decided];
            events.into_iter().flatten().map(move |event| Notice { rule: number, from, event })
        })
    }

    fn row(&self, formula: usize) -> &[Dated] {
        &self.labels[formula * self.count()..][..self.count()]
    }

    fn check_place(&self, state: usize, point: usize) -> Result<(), Refusal> {
        if state == 0 || state > self.count() {
            return Err(Refusal::NoState);
        }
        if point < state || point > self.count() {
            return Err(Refusal::NoPoint);
        }
        Ok(())
    }

    fn counted(&self, rule: Rule) -> Tally {
        let mut tally = Tally::default();
        let labels = self.row(rule.when).iter().zip(self.row(rule.expect));
        for (from, (&condition, &content)) in (1..).zip(labels) {
            match stands(condition, content, from, self.count()) {
                Standing::NotRaised => continue,
                Standing::Open => tally.open += 1,
                Standing::Fulfilled { .. } => tally.fulfilled += 1,
                Standing::Violated { .. } => tally.violated += 1,
            }
            tally.raised += 1;
        }
        tally
    }
}

fn stands(condition: Dated, content: Dated, state: usize, point: usize) -> Standing {
    if condition.truth() != Some(state) {
        return Standing::NotRaised;
    }
    match (content.truth(), content.falsity()) {
        (Some(date), _) if date <= point => Standing::Fulfilled { date },
        (_, Some(date)) if date <= point => Standing::Violated { date },
        _ => Standing::Open,
    }
}
