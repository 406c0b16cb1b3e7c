//! States, formulas, rules and tables.

use super::{MOST_FORMULAS, MOST_RULES};

#[derive(Clone, Copy, Debug, PartialEq, Eq)]
pub struct Link {
    pub kind: u8,
    pub target: u16,
}

#[derive(Clone, Copy, Debug, PartialEq, Eq)]
pub struct State {
    pub signals: u32,
    pub mark: u8,
    pub links: [Link; 2],
}

impl State {
    pub fn shows(&self, signal: u8) -> bool {
        self.signals >> signal & 1 == 1
    }

    pub fn refers(&self, kind: u8, target: usize) -> bool {
        self.links.iter().any(|link| link.kind == kind && usize::from(link.target) == target)
    }

    pub fn targets(&self, kind: u8) -> impl Iterator<Item = usize> + '_ {
        let of_kind = move |link: &&Link| link.kind == kind;
        self.links.iter().filter(of_kind).map(|link| usize::from(link.target))
    }
}

#[derive(Clone, Copy, Debug, PartialEq, Eq)]
pub enum Formula {
    True,
    Signal(u8),
    Mark(u8),
    Not(usize),
    And(usize, usize),
    Or(usize, usize),
    Next(usize),
    Prev(usize),
    Until(usize, usize),
    Since(usize, usize),
    At(u8, usize),
    Var,
    Link(u8),
    Bind(usize),
    Some(u8, usize),
}

impl Formula {
    pub fn parts(self) -> [Option<usize>; 2] {
        use Formula::*;
        match self {
            True | Signal(_) | Mark(_) | Var | Link(_) => [None, None],
            Not(p) | Next(p) | Prev(p) | At(_, p) | Bind(p) | Some(_, p) => [Option::Some(p), None],
            And(p, q) | Or(p, q) | Until(p, q) | Since(p, q) => [Option::Some(p), Option::Some(q)],
        }
    }
}

#[derive(Clone, Copy, Debug, PartialEq, Eq)]
pub struct Rule {
    pub when: usize,
    pub expect: usize,
}

/// Formulas whose parts come before them, and rules over those that are not loose.
#[derive(Clone, Debug, Default, PartialEq, Eq)]
pub struct Table {
    formulas: Vec<Formula>,
    loose: Vec<bool>,
    rules: Vec<Rule>,
}

#[derive(Clone, Copy, Debug, PartialEq, Eq)]
pub enum Defect {
    TooMany,
    Missing,
    Loose,
}

impl Table {
    pub fn formulas(&self) -> &[Formula] {
        &self.formulas
    }

    pub fn rules(&self) -> &[Rule] {
        &self.rules
    }

    pub fn is_loose(&self, formula: usize) -> bool {
        self.loose[formula]
    }

    pub fn add_formula(&mut self, formula: Formula) -> Result<(), Defect> {
        if self.formulas.len() == MOST_FORMULAS {
            return Err(Defect::TooMany);
        }
        let parts = || formula.parts().into_iter().flatten();
        if parts().any(|p| p >= self.formulas.len()) {
            return Err(Defect::Missing);
        }
        let loose = match formula {
            Formula::Var | Formula::Link(_) => true,
            Formula::Bind(_) | Formula::Some(..) => false,
            _ => parts().any(|p| self.loose[p]),
        };
        self.formulas.push(formula);
        self.loose.push(loose);
        Ok(())
    }

    pub fn add_rule(&mut self, rule: Rule) -> Result<(), Defect> {
        if self.rules.len() == MOST_RULES {
            return Err(Defect::TooMany);
        }
        let named = [rule.when, rule.expect];
        if named.iter().any(|&f| f >= self.formulas.len()) {
            return Err(Defect::Missing);
        }
        if named.iter().any(|&f| self.loose[f]) {
            return Err(Defect::Loose);
        }
        self.rules.push(rule);
        Ok(())
    }

    /// The loose formulas that formula `top` is made of, parts first: those whose labels go with what v is bound to.
    pub fn loose_parts(&self, top: usize) -> Vec<usize> {
        let mut wanted = [false; MOST_FORMULAS];
        wanted[top] = self.loose[top];
        for f in (0..=top).rev().filter(|&f| self.loose[f]) {
            if wanted[f] {
                for p in self.formulas[f].parts().into_iter().flatten() {
                    wanted[p] = self.loose[p];
                }
            }
        }
        (0..=top).filter(|&f| wanted[f]).collect()
    }
}
