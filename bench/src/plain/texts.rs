//! Rules texts and trace lines.

use super::table::Defect;
use super::{Formula, Link, Rule, State, Table, MOST_FORMULAS, MOST_RULES, MOST_STATES};
use std::ops::RangeInclusive;

const LONGEST_LINE: usize = 80;
const MOST_DIGITS: usize = 10;

#[derive(Clone, Copy, Debug, PartialEq, Eq)]
pub struct Fault {
    pub number: u8,
    pub line: usize,
}

/// Why a line is refused, by its number.
#[derive(Clone, Copy, Debug, PartialEq, Eq)]
enum Ground {
    Torn = 1,
    Form = 2,
    Range = 3,
    Missing = 4,
    Loose = 5,
}

impl Ground {
    fn at(self, line: usize) -> Fault {
        Fault { number: self as u8, line }
    }
}

impl From<Defect> for Ground {
    fn from(defect: Defect) -> Ground {
        match defect {
            Defect::TooMany => Ground::Range,
            Defect::Missing => Ground::Missing,
            Defect::Loose => Ground::Loose,
        }
    }
}

type Read<T> = Result<T, Ground>;

/// Reads a whole rules text: the table, and how many bytes were used.
pub fn read_rules(text: &[u8]) -> Result<(Table, usize), Fault> {
    let mut lines = Lines { rest: text, count: 0 };
    let mut table = Table::default();
    let formulas = lines.read(|line| count_line(line, b"formulas=", MOST_FORMULAS))?;
    for number in 0..formulas {
        lines.read(|line| Ok(table.add_formula(formula_line(line, number)?)?))?;
    }
    let rules = lines.read(|line| count_line(line, b"rules=", MOST_RULES))?;
    for number in 0..rules {
        lines.read(|line| Ok(table.add_rule(rule_line(line, number)?)?))?;
    }
    Ok((table, text.len() - lines.rest.len()))
}

/// Reads one trace line after `count` states: the state, and how many bytes were used.
pub fn read_state(text: &[u8], count: usize) -> Result<(State, usize), Fault> {
    let mut lines = Lines { rest: text, count: 0 };
    let state = lines.read(|line| state_line(line, count))?;
    Ok((state, text.len() - lines.rest.len()))
}

struct Lines<'a> {
    rest: &'a [u8],
    count: usize,
}

impl<'a> Lines<'a> {
    /// Takes the next line and reads it by `reader`; a refusal tells the line's number.
    fn read<T>(&mut self, reader: impl FnOnce(Fields<'a>) -> Read<T>) -> Result<T, Fault> {
        self.count += 1;
        let line = self.next().ok_or(Ground::Torn.at(self.count))?;
        reader(Fields { rest: line }).map_err(|ground| ground.at(self.count))
    }

    fn next(&mut self) -> Option<&'a [u8]> {
        let end = self.rest.iter().take(LONGEST_LINE + 1).position(|&b| b == b'\n')?;
        let line = &self.rest[..end];
        self.rest = &self.rest[end + 1..];
        Some(line)
    }
}

/// What is left of a line.
struct Fields<'a> {
    rest: &'a [u8],
}

impl<'a> Fields<'a> {
    fn key(&mut self, key: &[u8]) -> Read<()> {
        self.rest = self.rest.strip_prefix(key).ok_or(Ground::Form)?;
        Ok(())
    }

    fn number(&mut self, key: &[u8]) -> Read<u64> {
        self.key(key)?;
        let digits = self.take_while(|b| b.is_ascii_digit());
        if digits.is_empty() || digits.len() > MOST_DIGITS || (digits[0] == b'0' && digits.len() > 1) {
            return Err(Ground::Form);
        }
        Ok(digits.iter().fold(0, |value, digit| value * 10 + u64::from(digit - b'0')))
    }

    fn word(&mut self, key: &[u8]) -> Read<&'a [u8]> {
        self.key(key)?;
        Ok(self.take_while(|b| b != b' '))
    }

    fn take_while(&mut self, fits: impl Fn(u8) -> bool) -> &'a [u8] {
        let end = self.rest.iter().position(|&b| !fits(b)).unwrap_or(self.rest.len());
        let (taken, rest) = self.rest.split_at(end);
        self.rest = rest;
        taken
    }

    fn end(self) -> Read<()> {
        if self.rest.is_empty() {
            Ok(())
        } else {
            Err(Ground::Form)
        }
    }
}

fn within<T: TryFrom<u64>>(number: u64, range: RangeInclusive<u64>) -> Read<T> {
    if !range.contains(&number) {
        return Err(Ground::Range);
    }
    T::try_from(number).map_err(|_| Ground::Range)
}

fn count_line(mut line: Fields, key: &[u8], most: usize) -> Read<usize> {
    let count = line.number(key)?;
    line.end()?;
    within(count, 1..=most as u64)
}

fn formula_line(mut line: Fields, number: usize) -> Read<Formula> {
    let own = line.number(b"f=")?;
    let word = line.word(b" op=")?;
    let operator = Operator::named(word).ok_or(Ground::Form)?;
    let a = line.number(b" a=")?;
    let b = line.number(b" b=")?;
    line.end()?;
    within::<usize>(own, number as u64..=number as u64)?;
    operator.with(a, b)
}

#[derive(Clone, Copy)]
enum Operator {
    True,
    Signal,
    Mark,
    Not,
    And,
    Or,
    Next,
    Prev,
    Until,
    Since,
    At,
    Var,
    Link,
    Bind,
    Some,
}

impl Operator {
    fn named(word: &[u8]) -> Option<Operator> {
        Some(match word {
            b"true" => Operator::True,
            b"signal" => Operator::Signal,
            b"mark" => Operator::Mark,
            b"not" => Operator::Not,
            b"and" => Operator::And,
            b"or" => Operator::Or,
            b"next" => Operator::Next,
            b"prev" => Operator::Prev,
            b"until" => Operator::Until,
            b"since" => Operator::Since,
            b"at" => Operator::At,
            b"var" => Operator::Var,
            b"link" => Operator::Link,
            b"bind" => Operator::Bind,
            b"some" => Operator::Some,
            _ => return None,
        })
    }

    fn with(self, a: u64, b: u64) -> Read<Formula> {
        let unused = |number| within::<usize>(number, 0..=0);
        let signal = |number| within::<u8>(number, 0..=31);
        let nominal = |number| within::<u8>(number, 1..=255);
        let kind = |number| within::<u8>(number, 1..=15);
        let part = |number| within::<usize>(number, 0..=u64::from(u32::MAX));
        let formula = match self {
            Operator::And => return Ok(Formula::And(part(a)?, part(b)?)),
            Operator::Or => return Ok(Formula::Or(part(a)?, part(b)?)),
            Operator::Until => return Ok(Formula::Until(part(a)?, part(b)?)),
            Operator::Since => return Ok(Formula::Since(part(a)?, part(b)?)),
            Operator::At => return Ok(Formula::At(nominal(a)?, part(b)?)),
            Operator::Some => return Ok(Formula::Some(kind(a)?, part(b)?)),
            Operator::True => unused(a).map(|_| Formula::True)?,
            Operator::Var => unused(a).map(|_| Formula::Var)?,
            Operator::Signal => Formula::Signal(signal(a)?),
            Operator::Mark => Formula::Mark(nominal(a)?),
            Operator::Link => Formula::Link(kind(a)?),
            Operator::Not => Formula::Not(part(a)?),
            Operator::Next => Formula::Next(part(a)?),
            Operator::Prev => Formula::Prev(part(a)?),
            Operator::Bind => Formula::Bind(part(a)?),
        };
        unused(b)?;
        Ok(formula)
    }
}

fn rule_line(mut line: Fields, number: usize) -> Read<Rule> {
    let own = line.number(b"r=")?;
    let when = line.number(b" when=")?;
    let expect = line.number(b" expect=")?;
    line.end()?;
    within::<usize>(own, number as u64..=number as u64)?;
    let any = 0..=u64::from(u32::MAX);
    Ok(Rule { when: within(when, any.clone())?, expect: within(expect, any)? })
}

fn state_line(mut line: Fields, count: usize) -> Read<State> {
    let own = line.number(b"s=")?;
    let signals = line.number(b" signals=")?;
    let mark = line.number(b" mark=")?;
    let ka = line.number(b" ka=")?;
    let ta = line.number(b" ta=")?;
    let kb = line.number(b" kb=")?;
    let tb = line.number(b" tb=")?;
    line.end()?;
    if count >= MOST_STATES || own != count as u64 + 1 {
        return Err(Ground::Range);
    }
    let link = |kind, target| -> Read<Link> {
        Ok(Link { kind: within(kind, 0..=15)?, target: within(target, 0..=MOST_STATES as u64)? })
    };
    Ok(State {
        signals: within(signals, 0..=u64::from(u32::MAX))?,
        mark: within(mark, 0..=255)?,
        links: [link(ka, ta)?, link(kb, tb)?],
    })
}
