//! Whole labelling.

use super::lawful::{self, Refusal};
use super::{Formula, Kind, State, Table};

/// Labels each state for each formula: formula f at state i of n in cell f × n + i − 1. Answers the number of states.
pub fn label_whole<K: Kind>(
    table: &Table,
    states: &[State],
    labels: &mut [K],
    work: &mut [K],
) -> Result<usize, Refusal> {
    let count = states.len();
    let cells = table.formulas().len() * count;
    if count > K::LENGTH {
        return Err(Refusal::TooManyStates);
    }
    if labels.len() < cells || work.len() < cells {
        return Err(Refusal::ShortMemory);
    }
    lawful::check(states)?;
    if count == 0 {
        return Ok(0);
    }
    let (labels, work) = (&mut labels[..cells], &mut work[..cells]);
    let job = Job { table, states };
    for f in (0..table.formulas().len()).filter(|&f| !table.is_loose(f)) {
        job.label(f, work);
    }
    for (f, row) in labels.chunks_exact_mut(count).enumerate() {
        if table.is_loose(f) {
            row.fill(K::OPEN);
        } else {
            row.copy_from_slice(&work[f * count..][..count]);
        }
    }
    work.fill(K::OPEN);
    Ok(count)
}

/// What a labelling goes by; there is at least one state.
struct Job<'a> {
    table: &'a Table,
    states: &'a [State],
}

impl Job<'_> {
    /// Fills the row of a formula that is not loose, over the rows of those before it.
    fn label<K: Kind>(&self, f: usize, work: &mut [K]) {
        match self.table.formulas()[f] {
            Formula::Bind(p) => self.label_bind(f, p, work),
            Formula::Some(kind, p) => self.label_some(f, kind, p, work),
            _ => self.fill(f, 0, work),
        }
    }

    fn label_bind<K: Kind>(&self, f: usize, p: usize, work: &mut [K]) {
        let n = self.states.len();
        let loose = self.table.loose_parts(p);
        for i in 1..=n {
            self.fill_all(&loose, i, work);
            work[f * n + i - 1] = work[p * n + i - 1];
        }
    }

    fn label_some<K: Kind>(&self, f: usize, kind: u8, p: usize, work: &mut [K]) {
        let n = self.states.len();
        let loose = self.table.loose_parts(p);
        for (i, state) in (1..).zip(self.states) {
            let mut label = K::false_from(i);
            for target in state.targets(kind) {
                self.fill_all(&loose, target, work);
                label = label.or(work[p * n + i - 1]);
            }
            work[f * n + i - 1] = label;
        }
    }

    fn fill_all<K: Kind>(&self, formulas: &[usize], bound: usize, work: &mut [K]) {
        for &f in formulas {
            self.fill(f, bound, work);
        }
    }

    /// Fills the row of a formula that is no binder, with v bound to a state, or to none by 0.
    fn fill<K: Kind>(&self, f: usize, bound: usize, work: &mut [K]) {
        let n = self.states.len();
        let (below, rest) = work.split_at_mut(f * n);
        let row = &mut rest[..n];
        let part = |p: usize| &below[p * n..][..n];
        match self.table.formulas()[f] {
            Formula::True => self.decide(row, |_, _| true),
            Formula::Signal(signal) => self.decide(row, |_, state| state.shows(signal)),
            Formula::Mark(nominal) => self.decide(row, |_, state| state.mark == nominal),
            Formula::Var => self.decide(row, |i, _| i == bound),
            Formula::Link(kind) => self.decide(row, |_, state| state.refers(kind, bound)),
            Formula::Not(p) => negate(row, part(p)),
            Formula::And(p, q) => join(row, part(p), part(q), K::and),
            Formula::Or(p, q) => join(row, part(p), part(q), K::or),
            Formula::Next(p) => next(row, part(p)),
            Formula::Prev(p) => prev(row, part(p)),
            Formula::Until(p, q) => until(row, part(p), part(q)),
            Formula::Since(p, q) => since(row, part(p), part(q)),
            Formula::At(nominal, p) => self.at(row, nominal, part(p)),
            Formula::Bind(_) | Formula::Some(..) => unreachable!("a binder is not loose"),
        }
    }

    fn decide<K: Kind>(&self, row: &mut [K], holds: impl Fn(usize, &State) -> bool) {
        for (i, (cell, state)) in (1..).zip(row.iter_mut().zip(self.states)) {
            *cell = if holds(i, state) { K::true_from(i) } else { K::false_from(i) };
        }
    }

    fn at<K: Kind>(&self, row: &mut [K], nominal: u8, part: &[K]) {
        match self.states.iter().position(|state| state.mark == nominal) {
            Some(there) => {
                for (i, cell) in (1..).zip(row) {
                    *cell = part[there].seen_from(i);
                }
            }
            None => row.fill(K::OPEN),
        }
    }
}

fn negate<K: Kind>(row: &mut [K], part: &[K]) {
    for (cell, label) in row.iter_mut().zip(part) {
        *cell = label.not();
    }
}

fn join<K: Kind>(row: &mut [K], left: &[K], right: &[K], both: impl Fn(K, K) -> K) {
    for (cell, (&a, &b)) in row.iter_mut().zip(left.iter().zip(right)) {
        *cell = both(a, b);
    }
}

fn next<K: Kind>(row: &mut [K], part: &[K]) {
    let last = row.len() - 1;
    row[..last].copy_from_slice(&part[1..]);
    row[last] = K::OPEN;
}

fn prev<K: Kind>(row: &mut [K], part: &[K]) {
    row[0] = K::false_from(1);
    for (i, (cell, before)) in (2..).zip(row[1..].iter_mut().zip(part)) {
        *cell = before.seen_from(i);
    }
}

fn until<K: Kind>(row: &mut [K], first: &[K], then: &[K]) {
    let mut own = K::OPEN;
    for (cell, (&f, &g)) in row.iter_mut().zip(first.iter().zip(then)).rev() {
        own = g.or(f.and(own));
        *cell = own;
    }
}

fn since<K: Kind>(row: &mut [K], after: &[K], then: &[K]) {
    let mut own = then[0];
    row[0] = own;
    let parts = after[1..].iter().zip(&then[1..]);
    for (i, (cell, (&f, &g))) in (2..).zip(row[1..].iter_mut().zip(parts)) {
        own = g.or(f.and(own.seen_from(i)));
        *cell = own;
    }
}
