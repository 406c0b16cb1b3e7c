//! Kinds of label.

/// What labelling asks of a label. Points and states are counted from 1.
pub trait Kind: Copy {
    /// The most states that labels of this kind serve.
    const LENGTH: usize;
    /// Unknown at all points.
    const OPEN: Self;

    fn true_from(point: usize) -> Self;
    fn false_from(point: usize) -> Self;
    fn not(self) -> Self;
    fn and(self, other: Self) -> Self;
    fn or(self, other: Self) -> Self;
    /// Nothing is decided before the point.
    fn seen_from(self, point: usize) -> Self;
}

/// 0 is unknown, 257 − d true from point d, d − 257 false from d.
#[derive(Clone, Copy, Debug, PartialEq, Eq)]
pub struct Dated(pub i16);

impl Kind for Dated {
    const LENGTH: usize = 256;
    const OPEN: Dated = Dated(0);

    fn true_from(point: usize) -> Dated {
        Dated(257 - point as i16)
    }

    fn false_from(point: usize) -> Dated {
        Dated(point as i16 - 257)
    }

    fn not(self) -> Dated {
        Dated(-self.0)
    }

    fn and(self, other: Dated) -> Dated {
        Dated(self.0.min(other.0))
    }

    fn or(self, other: Dated) -> Dated {
        Dated(self.0.max(other.0))
    }

    fn seen_from(self, point: usize) -> Dated {
        let most = 257 - point as i16;
        Dated(self.0.min(most).max(-most))
    }
}

/// What a label says at a truncation point.
#[derive(Clone, Copy, Debug, PartialEq, Eq)]
pub enum Reading {
    True,
    False,
    Unknown,
}

impl Dated {
    /// The point from which it is true.
    pub fn truth(self) -> Option<usize> {
        (self.0 > 0).then(|| (257 - self.0) as usize)
    }

    /// The point from which it is false.
    pub fn falsity(self) -> Option<usize> {
        (self.0 < 0).then(|| (257 + self.0) as usize)
    }

    pub fn reading(self, point: usize) -> Reading {
        if self.truth().is_some_and(|date| date <= point) {
            Reading::True
        } else if self.falsity().is_some_and(|date| date <= point) {
            Reading::False
        } else {
            Reading::Unknown
        }
    }
}

/// Bit c − 1 of each mask is a reading at point c.
#[derive(Clone, Copy, Debug, PartialEq, Eq)]
pub struct Strip {
    pub weak: u64,
    pub strong: u64,
}

/// The bits of the points from this one on.
fn points_from(point: usize) -> u64 {
    u64::MAX << (point - 1)
}

impl Kind for Strip {
    const LENGTH: usize = 64;
    const OPEN: Strip = Strip { weak: u64::MAX, strong: 0 };

    fn true_from(point: usize) -> Strip {
        Strip { weak: u64::MAX, strong: points_from(point) }
    }

    fn false_from(point: usize) -> Strip {
        Strip { weak: !points_from(point), strong: 0 }
    }

    fn not(self) -> Strip {
        Strip { weak: !self.strong, strong: !self.weak }
    }

    fn and(self, other: Strip) -> Strip {
        Strip { weak: self.weak & other.weak, strong: self.strong & other.strong }
    }

    fn or(self, other: Strip) -> Strip {
        Strip { weak: self.weak | other.weak, strong: self.strong | other.strong }
    }

    fn seen_from(self, point: usize) -> Strip {
        let points = points_from(point);
        Strip { weak: self.weak | !points, strong: self.strong & points }
    }
}
