//! Rules texts and traces by chance, before they are written out: numbers may be out of order here.

use crate::random::Random;
use std::fmt::Write;

pub const OPERATORS: [&str; 15] = [
    "true", "signal", "mark", "not", "and", "or", "next", "prev", "until", "since", "at", "var", "link", "bind", "some",
];

/// Numbers at the ends of ranges.
const LIMITS: [u64; 13] = [0, 1, 15, 16, 31, 32, 63, 64, 255, 256, 257, 4_294_967_295, 4_294_967_296];

#[derive(Clone)]
pub struct Formula {
    pub operator: &'static str,
    pub a: u64,
    pub b: u64,
    pub loose: bool,
}

#[derive(Clone, Default)]
pub struct Rules {
    pub formulas: Vec<Formula>,
    pub rules: Vec<(u64, u64)>,
}

/// Signals, mark, ka, ta, kb, tb.
pub type Line = [u64; 6];

impl Rules {
    pub fn text(&self) -> String {
        let mut text = format!("formulas={}\n", self.formulas.len());
        for (k, Formula { operator, a, b, .. }) in self.formulas.iter().enumerate() {
            let _ = writeln!(text, "f={k} op={operator} a={a} b={b}");
        }
        let _ = writeln!(text, "rules={}", self.rules.len());
        for (k, (when, expect)) in self.rules.iter().enumerate() {
            let _ = writeln!(text, "r={k} when={when} expect={expect}");
        }
        text
    }

    pub fn add(&mut self, operator: &'static str, a: u64, b: u64) -> u64 {
        let loose = |part: u64| self.formulas[part as usize].loose;
        let loose = match operator {
            "var" | "link" => true,
            "not" | "next" | "prev" => loose(a),
            "and" | "or" | "until" | "since" => loose(a) || loose(b),
            "at" => loose(b),
            _ => false,
        };
        self.formulas.push(Formula { operator, a, b, loose });
        self.formulas.len() as u64 - 1
    }

    /// Adds a formula by chance, of one of these operators or, if it is the first, without parts.
    pub fn grow(&mut self, random: &mut Random, operators: &[&'static str]) {
        const BARE: [&str; 5] = ["true", "signal", "mark", "var", "link"];
        let mut operator = random.one_of(operators);
        while self.formulas.is_empty() && !BARE.contains(&operator) {
            operator = random.one_of(&BARE[..3]);
        }
        let part = if self.formulas.is_empty() { 0 } else { self.part(random, matches!(operator, "bind" | "some")) };
        let other = if self.formulas.is_empty() { 0 } else { self.part(random, false) };
        let (a, b) = match operator {
            "true" | "var" => (0, 0),
            "signal" => (signal(random), 0),
            "mark" => (nominal(random), 0),
            "at" => (nominal(random), part),
            "link" => (kind(random), 0),
            "some" => (kind(random), part),
            "not" | "next" | "prev" | "bind" => (part, 0),
            _ => (part, other),
        };
        self.add(operator, a, b);
    }

    /// A formula there is, mostly a late one; for binders mostly one that has something to bind.
    fn part(&self, random: &mut Random, binder: bool) -> u64 {
        let count = self.formulas.len();
        if binder && !random.once_in(4) {
            if let Some(late) = (0..count).rev().find(|&f| self.formulas[f].loose) {
                return late as u64;
            }
        }
        let late = count.min(6);
        (if random.once_in(3) { random.below(count) } else { count - 1 - random.below(late) }) as u64
    }

    /// The formulas that a rule may name.
    pub fn closed(&self) -> Vec<u64> {
        (0..self.formulas.len()).filter(|&f| !self.formulas[f].loose).map(|f| f as u64).collect()
    }
}

fn signal(random: &mut Random) -> u64 {
    if random.once_in(10) {
        random.below(32) as u64
    } else {
        random.below(4) as u64
    }
}

fn nominal(random: &mut Random) -> u64 {
    if random.once_in(6) {
        random.between(1, 255) as u64
    } else {
        random.between(1, 4) as u64
    }
}

fn kind(random: &mut Random) -> u64 {
    if random.once_in(8) {
        random.between(1, 15) as u64
    } else {
        random.between(1, 2) as u64
    }
}

/// A rules text in order.
pub fn rules(random: &mut Random, formulas: usize, count: usize) -> Rules {
    let mut rules = Rules::default();
    while rules.formulas.len() < formulas {
        rules.grow(random, &OPERATORS);
    }
    let closed = rules.closed();
    if closed.is_empty() {
        rules.formulas[0] = Formula { operator: "true", a: 0, b: 0, loose: false };
    }
    let closed = rules.closed();
    for _ in 0..count {
        let named = (random.one_of(&closed), random.one_of(&closed));
        rules.rules.push(named);
    }
    rules
}

/// Makes one thing of a rules text such that its table is not in order, or a number out of range.
pub fn spoil(random: &mut Random, rules: &mut Rules) {
    let count = rules.formulas.len();
    let f = random.below(count);
    let any_rule = random.below(rules.rules.len());
    let loose = (0..count).find(|&f| rules.formulas[f].loose);
    match random.below(10) {
        0 => {
            let late = random.between(f, count + 1) as u64;
            rules.formulas[f].operator = random.one_of(&["not", "and", "or", "next", "until", "since", "bind"]);
            rules.formulas[f].a = late;
        }
        1 => {
            rules.formulas[f].operator = random.one_of(&["at", "some", "and", "since"]);
            rules.formulas[f].b = random.between(f, count + 1) as u64;
        }
        2 => rules.rules[any_rule].0 = random.between(count, count + 2) as u64,
        3 => rules.rules[any_rule].1 = random.between(count, count + 2) as u64,
        4 => rules.rules[any_rule].0 = loose.unwrap_or(count) as u64,
        5 => rules.rules[any_rule].1 = loose.unwrap_or(count) as u64,
        6 => rules.rules[any_rule] = (loose.unwrap_or(0) as u64, count as u64),
        7 => rules.formulas[f].a = random.one_of(&LIMITS),
        8 => rules.formulas[f].b = random.one_of(&LIMITS),
        _ => rules.formulas[f].operator = random.one_of(&OPERATORS),
    }
}

/// A lawful trace.
pub fn trace(random: &mut Random, states: usize) -> Vec<Line> {
    let mut nominals: Vec<u64> = (1..=255).collect();
    let busy = random.between(1, 4);
    let mut lines = Vec::new();
    for earlier in 0..states {
        let signals = match random.below(12) {
            0 => random.number() & 0xFFFF_FFFF,
            1 => 0xFFFF_FFFF,
            _ => random.number() & random.number() & 15 | random.number() & 3,
        };
        let mut line = [signals, 0, 0, 0, 0, 0];
        if random.once_in(busy + 1) && !nominals.is_empty() {
            let place = if random.once_in(5) { random.below(nominals.len()) } else { 0 };
            line[1] = nominals.remove(place);
        }
        for at in [2, 4] {
            if earlier > 0 && random.once_in(busy) {
                line[at] = kind(random);
                line[at + 1] = if random.once_in(2) { earlier } else { random.between(1, earlier) } as u64;
            }
        }
        lines.push(line);
    }
    lines
}

/// Makes a state of the trace unlawful, or one that no line can show.
pub fn break_law(random: &mut Random, lines: &mut [Line]) {
    if lines.is_empty() {
        return;
    }
    let at = random.below(lines.len());
    let own = at as u64 + 1;
    let link = random.one_of(&[2, 4]);
    match random.below(10) {
        0..=2 => {
            let nominal = nominal(random);
            lines[at][1] = nominal;
            let other = random.below(lines.len());
            lines[other][1] = nominal;
        }
        3 => lines[at][link + 1] = own,
        4 => lines[at][link + 1] = own + random.between(1, 3) as u64,
        5 => (lines[at][link], lines[at][link + 1]) = (kind(random), random.one_of(&[0, own, 256])),
        6 => (lines[at][link], lines[at][link + 1]) = (0, random.between(1, 256) as u64),
        7 => lines[at][link] = random.one_of(&[16, 17, 255, 256]),
        8 => lines[at][random.below(6)] = random.one_of(&LIMITS),
        _ => (lines[at][2], lines[at][3], lines[at][5]) = (kind(random), own, own),
    }
}

pub fn trace_text(lines: &[Line]) -> String {
    let mut text = String::new();
    for (i, [signals, mark, ka, ta, kb, tb]) in (1..).zip(lines) {
        let _ = writeln!(text, "s={i} signals={signals} mark={mark} ka={ka} ta={ta} kb={kb} tb={tb}");
    }
    text
}
