//! The rule deep, slow on purpose: three walks of their own down from the formula, each
//! along every path, whatever other paths have come to.

use crate::naive::{Model, Premise};

/// So many connectives may lie on a path, that of the formula being the first.
pub const LAYERS: usize = 8;

impl Model {
    /// Whether the walk down from the term meets every premise and gives it the value.
    pub fn deep(&self, term: u16, value: u16, premises: &[Premise]) -> bool {
        self.is_grounded(premises, LAYERS, term)
            && premises
                .iter()
                .all(|premise| self.comes_to(premises, LAYERS, premise.row, term))
            && self.walk_value(premises, LAYERS, term) == value
    }

    /// Whether every path of the walk ends at a premise within so many connectives.
    fn is_grounded(&self, premises: &[Premise], layers: usize, term: u16) -> bool {
        let under = |&arg: &u16| self.is_grounded(premises, layers - 1, arg);
        is_premise(premises, term)
            || (layers > 0
                && matches!(self.row(term)[0], 1..=3)
                && self.args(term).iter().all(under))
    }

    /// The value of a term on the walk: a premise's own, a connective's by those of all
    /// its arguments. It means nothing where a path does not end at a premise.
    fn walk_value(&self, premises: &[Premise], layers: usize, term: u16) -> u16 {
        if let Some(premise) = premises.iter().find(|premise| premise.row == term) {
            return premise.value;
        }
        if layers == 0 {
            return 0;
        }
        let arg = |&arg: &u16| self.walk_value(premises, layers - 1, arg);
        let args: Vec<u16> = self.args(term).iter().map(arg).collect();
        let holds = match self.row(term)[0] {
            1 => args[0] != 1,
            2 => args.iter().all(|&arg| arg == 1),
            _ => args.contains(&1),
        };
        u16::from(holds)
    }

    /// Whether the walk from a term comes to another. Below a premise it does not go on.
    fn comes_to(&self, premises: &[Premise], layers: usize, to: u16, from: u16) -> bool {
        let under = |&arg: &u16| self.comes_to(premises, layers - 1, to, arg);
        from == to
            || (layers > 0 && !is_premise(premises, from) && self.args(from).iter().any(under))
    }
}

fn is_premise(premises: &[Premise], term: u16) -> bool {
    premises.iter().any(|premise| premise.row == term)
}
