//! Both sides timed in turn, over the same inputs.

use crate::ffi;
use crate::inputs::LONGEST_INPUT;
use crate::random::Random;
use crate::sketches::{self, Line, Rules};
use bench::plain::{calls, watch, Dated, Kind, Strip};
use std::hint::black_box;
use std::time::Instant;

const REPETITIONS: usize = 21;
/// A sample takes at least so many seconds, if its call is shorter.
const SAMPLE: f64 = 0.004;
const CLOSED: [&str; 11] = ["true", "signal", "mark", "not", "and", "or", "next", "prev", "until", "since", "at"];

pub struct Row {
    pub what: String,
    /// Microseconds.
    pub ours: f64,
    pub plain: f64,
}

/// The inputs that are timed.
pub struct Timed {
    rules: Vec<u8>,
    trace: Vec<u8>,
    /// Without binders and with them, 256 states and 64.
    bare: [Vec<u8>; 2],
    binders: [Vec<u8>; 2],
    /// The longest input there is, refused after 256 states.
    refused: Vec<u8>,
}

impl Timed {
    pub fn new() -> Timed {
        let (bare, binders) = (bare_rules().text(), binder_rules().text());
        let traces = [trace(256), trace(64)].map(|lines| sketches::trace_text(&lines));
        let over = |rules: &str| [0, 1].map(|k| (rules.to_string() + &traces[k]).into_bytes());
        let line = b"s=257 signals=1 mark=0 ka=0 ta=0 kb=0 tb=0\n";
        let refused = over(&bare)[0].iter().chain(line.iter().cycle()).copied().take(LONGEST_INPUT).collect();
        Timed {
            bare: over(&bare),
            binders: over(&binders),
            rules: bare.into_bytes(),
            trace: traces[0].clone().into_bytes(),
            refused,
        }
    }

    pub fn inputs(&self) -> [&[u8]; 5] {
        [&self.bare[0], &self.binders[0], &self.bare[1], &self.binders[1], &self.refused]
    }

    pub fn table(&self) -> Vec<Row> {
        let watched = format!("watch {} bytes, with 8 binders", self.binders[0].len());
        vec![
            dated("label 64 formulas x 256 states, dated", &self.bare[0], 64 * 256),
            dated("the same with 8 binders", &self.binders[0], 64 * 256),
            strips("label 64 formulas x 64 states, strips", &self.bare[1], 64 * 64),
            strips("the same with 8 binders", &self.binders[1], 64 * 64),
            appends("256 appends, 64 formulas, 16 rules", &self.bare[0]),
            reading_rules("read a rules text, 64 formulas, 16 rules", &self.rules),
            reading_states("read 256 trace lines", &self.trace),
            watching(&watched, &self.binders[0], b"end states=256"),
            watching("watch 32768 bytes, refused at state 257", &self.refused, b"refused=3 line=339"),
        ]
    }
}

/// Whole labelling of tables that are mostly of one operator, dated, over 256 states.
pub fn by_operator() -> Vec<Row> {
    let trace = sketches::trace_text(&trace(256));
    let of = |what: &str, rules: &Rules| dated(what, (rules.text() + &trace).as_bytes(), rules.formulas.len() * 256);
    let mut rows: Vec<Row> =
        CLOSED.iter().map(|operator| of(&format!("62 x {operator}"), &one_operator(operator))).collect();
    for body in ["var", "link 1", "not link 1", "true and link 1", "true until link 1", "true since link 1"] {
        rows.push(of(&format!("4 x bind ({body})"), &four_binders("bind", body)));
    }
    rows.push(of("4 x some 1 (link 1)", &four_binders("some", "link 1")));
    rows
}

/// Two signals and 62 formulas of one operator over them and one another.
fn one_operator(operator: &'static str) -> Rules {
    let mut rules = Rules::default();
    rules.add("signal", 0, 0);
    rules.add("signal", 1, 0);
    for f in 2..64 {
        match operator {
            "true" => rules.add(operator, 0, 0),
            "signal" | "mark" => rules.add(operator, f % 31 + 1, 0),
            "at" => rules.add(operator, f, f - 2),
            "not" | "next" | "prev" => rules.add(operator, f - 2, 0),
            _ => rules.add(operator, f - 2, f % 2),
        };
    }
    rules.rules.push((0, 1));
    rules
}

/// Four binders over a loose formula, which is made of one or two.
fn four_binders(operator: &'static str, body: &str) -> Rules {
    let mut rules = Rules::default();
    let always = rules.add("true", 0, 0);
    let loose = if body == "var" { rules.add("var", 0, 0) } else { rules.add("link", 1, 0) };
    let body = match body {
        "not link 1" => rules.add("not", loose, 0),
        "true and link 1" => rules.add("and", always, loose),
        "true until link 1" => rules.add("until", always, loose),
        "true since link 1" => rules.add("since", always, loose),
        _ => loose,
    };
    for _ in 0..4 {
        let (a, b) = if operator == "some" { (1, body) } else { (body, 0) };
        rules.add(operator, a, b);
    }
    rules.rules.push((0, 0));
    rules
}

/// 64 formulas without binders, and 16 rules.
fn bare_rules() -> Rules {
    let mut random = Random::new(64);
    let mut rules = Rules::default();
    while rules.formulas.len() < 64 {
        rules.grow(&mut random, &CLOSED);
    }
    add_rules(&mut rules);
    rules
}

/// 64 formulas with four `bind` and four `some` over loose `until` and `since`, and 16 rules.
fn binder_rules() -> Rules {
    let mut random = Random::new(65);
    let mut rules = Rules::default();
    let always = rules.add("true", 0, 0);
    for kind in 1..=4 {
        let link = rules.add("link", kind, 0);
        let later = rules.add("until", always, link);
        rules.add("bind", later, 0);
        let signal = rules.add("signal", kind, 0);
        let here = rules.add("var", 0, 0);
        let both = rules.add("and", signal, here);
        let earlier = rules.add("since", always, both);
        rules.add("some", kind, earlier);
    }
    while rules.formulas.len() < 64 {
        rules.grow(&mut random, &CLOSED);
        if rules.formulas.last().is_some_and(|formula| formula.loose) {
            rules.formulas.pop();
        }
    }
    add_rules(&mut rules);
    rules
}

/// Adds 16 rules, half of them with a condition that always holds.
fn add_rules(rules: &mut Rules) {
    let closed = rules.closed();
    let always = rules.formulas.iter().position(|formula| formula.operator == "true").unwrap_or(0) as u64;
    for k in 0..16 {
        let when = if k % 2 == 0 { always } else { closed[k] };
        rules.rules.push((when, closed[closed.len() - 1 - k]));
    }
}

/// A lawful trace with long numbers, and two references in most states.
fn trace(states: usize) -> Vec<Line> {
    let mut random = Random::new(256);
    let link = |random: &mut Random, earlier: usize| match earlier {
        0 => (0, 0),
        _ => (random.between(1, 5) as u64, random.between(earlier.div_ceil(2), earlier) as u64),
    };
    (0..states)
        .map(|earlier| {
            let signals = random.number() & random.number() & 0x7FFF_FFFF | 1 << 31;
            let ((ka, ta), (kb, tb)) = (link(&mut random, earlier), link(&mut random, earlier));
            [signals, earlier as u64, ka, ta, kb, tb]
        })
        .collect()
}

fn dated(what: &str, text: &[u8], cells: usize) -> Row {
    let mut ours = vec![0; cells];
    let mut plain = vec![Dated::OPEN; cells];
    labelling(
        what,
        |again| assert_eq!(ffi::label_dated(black_box(text), again, black_box(&mut ours)).refused, 0),
        |again| assert_eq!(calls::label_dated(black_box(text), again, black_box(&mut plain)).refused, 0),
    )
}

fn strips(what: &str, text: &[u8], cells: usize) -> Row {
    let (mut weak, mut strong) = (vec![0; cells], vec![0; cells]);
    let mut plain = vec![Strip::OPEN; cells];
    labelling(
        what,
        |again| assert_eq!(ffi::label_strips(black_box(text), again, black_box(&mut weak), &mut strong).refused, 0),
        |again| assert_eq!(calls::label_strips(black_box(text), again, black_box(&mut plain)).refused, 0),
    )
}

/// The time of one labelling: that of many over one reading, less that of one, shared among the others.
fn labelling(what: &str, mut ours: impl FnMut(usize), mut plain: impl FnMut(usize)) -> Row {
    let longer = seconds(|| ours(1)).max(seconds(|| plain(1)));
    let again = (SAMPLE / longer).ceil().clamp(4.0, 2000.0) as usize;
    let mut one = [f64::MAX; 2];
    let mut many = [f64::MAX; 2];
    for _ in 0..REPETITIONS {
        one[0] = one[0].min(seconds(|| ours(0)));
        one[1] = one[1].min(seconds(|| plain(0)));
        many[0] = many[0].min(seconds(|| ours(again)));
        many[1] = many[1].min(seconds(|| plain(again)));
    }
    let share = |side: usize| (many[side] - one[side]) * 1e6 / again as f64;
    Row { what: what.to_string(), ours: share(0), plain: share(1) }
}

fn appends(what: &str, text: &[u8]) -> Row {
    calls_of(
        what,
        || assert_eq!(ffi::append(black_box(text)).count, 256),
        || assert_eq!(calls::append(black_box(text)).count, 256),
    )
}

fn reading_rules(what: &str, text: &[u8]) -> Row {
    calls_of(
        what,
        || assert_eq!(ffi::rules(black_box(text)).count, text.len()),
        || assert_eq!(calls::rules(black_box(text)).count, text.len()),
    )
}

fn reading_states(what: &str, text: &[u8]) -> Row {
    let (mut ours, mut plain) = ([0; 256], [0; 256]);
    calls_of(
        what,
        || assert_eq!(ffi::states(black_box(text), black_box(&mut ours)), 256),
        || assert_eq!(calls::states(black_box(text), black_box(&mut plain)), 256),
    )
}

fn watching(what: &str, input: &[u8], last: &[u8]) -> Row {
    let wanted = watch(input);
    let lines = wanted.split(|&b| b == b'\n').rev().nth(1).unwrap_or(b"");
    assert!(lines.starts_with(last), "{}", lines.escape_ascii());
    let mut output = vec![0; wanted.len()];
    let what = format!("{what}, {} lines out", wanted.iter().filter(|&&b| b == b'\n').count());
    calls_of(
        &what,
        || assert_eq!(ffi::watch(black_box(input), black_box(&mut output)), Ok(wanted.len())),
        || assert_eq!(black_box(watch(black_box(input))).len(), wanted.len()),
    )
}

/// The time of one call, of as many in a row as make up a sample.
fn calls_of(what: &str, mut ours: impl FnMut(), mut plain: impl FnMut()) -> Row {
    let shorter = seconds(&mut ours).min(seconds(&mut plain));
    let count = (SAMPLE / shorter).ceil().clamp(1.0, 100_000.0) as usize;
    let mut best = [f64::MAX; 2];
    for _ in 0..REPETITIONS {
        best[0] = best[0].min(seconds(|| (0..count).for_each(|_| ours())));
        best[1] = best[1].min(seconds(|| (0..count).for_each(|_| plain())));
    }
    let [ours, plain] = best.map(|all| all * 1e6 / count as f64);
    Row { what: what.to_string(), ours, plain }
}

fn seconds(mut work: impl FnMut()) -> f64 {
    let start = Instant::now();
    work();
    start.elapsed().as_secs_f64()
}
