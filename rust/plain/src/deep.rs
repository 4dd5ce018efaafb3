//! The rule deep: a formula's value by a walk down from it, through not, and, or, to
//! the premises.

use crate::problem::{AND, NOT, OR};
use crate::rules::View;
use crate::MAX_TERMS;
use std::num::NonZeroU8;

/// So many connectives may lie on a path, the formula's own being the first.
const LAYERS: u8 = 8;

/// What a walk knows of a row that has a value: the value, the layers, which are the
/// most connectives on a path from it to a premise, and whether it was met.
#[derive(Clone, Copy)]
struct Known(NonZeroU8);

impl Known {
    const VALUE: u8 = 1;
    const MET: u8 = 2;
    const LAYERS_FROM: u32 = 2;
    const LAYERS: u8 = 15;
    const KNOWN: NonZeroU8 = NonZeroU8::new(128).unwrap();

    /// A premise, which has no layers, before the walk comes to it.
    fn premise(value: u16) -> Self {
        Known(Self::KNOWN | u8::from(value == 1))
    }

    /// A connective that the walk has come to.
    fn connective(layers: u8, value: bool) -> Self {
        Known(Self::KNOWN | layers << Self::LAYERS_FROM | Self::MET | u8::from(value))
    }

    fn value(self) -> bool {
        self.0.get() & Self::VALUE != 0
    }

    fn layers(self) -> u8 {
        self.0.get() >> Self::LAYERS_FROM & Self::LAYERS
    }

    fn is_met(self) -> bool {
        self.0.get() & Self::MET != 0
    }

    fn met(self) -> Self {
        Known(self.0 | Self::MET)
    }
}

struct Walk<'a> {
    view: View<'a>,
    known: [Option<Known>; MAX_TERMS],
}

impl View<'_> {
    /// Whether the walk down from the row comes to all premises and gives it the value.
    pub fn deep(self, row: u8, value: u16, premises: &[u8]) -> bool {
        let mut walk = Walk {
            view: self,
            known: [None; MAX_TERMS],
        };
        for &premise in premises {
            walk.known[usize::from(premise)] = Some(Known::premise(self.value(premise)));
        }
        let found = walk.come_to(row, LAYERS);
        let is_met = |&premise: &u8| walk.known[usize::from(premise)].is_some_and(Known::is_met);
        found.is_some_and(|known| u16::from(known.value()) == value) && premises.iter().all(is_met)
    }
}

impl Walk<'_> {
    /// What the walk finds at the row, if all its paths end at premises within so many
    /// layers. A row is gone into once: one that has no value ends the whole walk.
    #[inline]
    fn come_to(&mut self, row: u8, layers: u8) -> Option<Known> {
        let Some(known) = &mut self.known[usize::from(row)] else {
            return self.go_into(row, layers);
        };
        *known = known.met();
        (known.layers() <= layers).then_some(*known)
    }

    /// The same of a row that nothing is known of: a connective, or a leaf without a
    /// value.
    fn go_into(&mut self, row: u8, layers: u8) -> Option<Known> {
        let term = self.view.term(row);
        if layers == 0 || !matches!(term.head, NOT | AND | OR) {
            return None;
        }
        let (mut below, mut any, mut all) = (0, false, true);
        for &arg in term.args() {
            let arg = self.come_to(arg, layers - 1)?;
            below = arg.layers().max(below);
            any |= arg.value();
            all &= arg.value();
        }
        let value = match term.head {
            NOT => !any,
            AND => all,
            _ => any,
        };
        let found = Some(Known::connective(below + 1, value));
        self.known[usize::from(row)] = found;
        found
    }
}
