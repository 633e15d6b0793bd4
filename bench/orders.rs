//! A font whose rows are in another order, beside the same font in the usual one. 000 does not draw the first, so both
//! sides are the port.
use crate::cases::{Case, Drawing, Font, Side};
use std::mem::swap;

pub struct InOrder<C> {
    other: C,
    usual: C,
}

impl<C: Drawing> InOrder<C> {
    pub fn of(other: &'static Font, usual: &'static Font, case: impl Fn(&'static Font) -> C) -> InOrder<C> {
        assert!(usual.in_usual_order() && !other.in_usual_order(), "the two fonts do not have the orders they should");
        InOrder { other: case(other), usual: case(usual) }
    }
}

impl<C: Drawing> Case for InOrder<C> {
    fn sides(&self) -> &'static [Side] {
        &[Side::Port, Side::UsualOrder]
    }

    fn port(&mut self) {
        self.other.port();
    }

    /// On the same buffer, since one may be slower to draw on than another, by where it lies.
    fn beside(&mut self) {
        swap(self.other.buffer(), self.usual.buffer());
        self.usual.port();
        swap(self.other.buffer(), self.usual.buffer());
    }

    /// The usual order is compared with its other sides too, so that two equal faults are seen.
    fn same(&mut self) -> bool {
        let drawn = self.other.drawn();
        drawn.is_some() && drawn == self.usual.drawn() && self.usual.same()
    }

    fn per(&self) -> usize {
        self.usual.per()
    }
}
