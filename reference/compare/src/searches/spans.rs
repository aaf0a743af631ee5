//! Spans of numbers, boxes of points, and the rule that passes a whole box over: the formulas of a point's parameter and distance, worked
//! with spans. Each step is monotone after rounding, so that what is computed of a point of the box lies in the span computed of the box.

use super::edges::{Edge, FAR_END, NEAR_END, Point};
use super::wrong::Wrong;

/// The numbers from one up to another; none where they are the other way round.
#[derive(Clone, Copy)]
pub struct Span {
    pub low: f64,
    pub high: f64,
}

pub const NOTHING: Span = Span { low: f64::INFINITY, high: f64::NEG_INFINITY };

/// A box: the span of each coordinate.
pub type Bounds = [Span; 3];

impl Span {
    pub fn hull(self, other: Span) -> Span {
        Span { low: self.low.min(other.low), high: self.high.max(other.high) }
    }

    fn less(self, c: f64) -> Span {
        Span { low: self.low - c, high: self.high - c }
    }

    fn times(self, c: f64, wrong: Wrong) -> Span {
        let (a, b) = (self.low * c, self.high * c);
        if wrong == Wrong::ProductEndsAsTheyCome { Span { low: a, high: b } } else { Span { low: a.min(b), high: a.max(b) } }
    }

    fn plus(self, other: Span) -> Span {
        Span { low: self.low + other.low, high: self.high + other.high }
    }

    fn minus(self, other: Span, wrong: Wrong) -> Span {
        if wrong == Wrong::DifferenceOfLikeEnds {
            return Span { low: self.low - other.low, high: self.high - other.high };
        }
        Span { low: self.low - other.high, high: self.high - other.low }
    }

    fn over(self, c: f64) -> Span {
        Span { low: self.low / c, high: self.high / c }
    }

    /// What no square of a number of the span is below.
    fn least_square(self, wrong: Wrong) -> f64 {
        if self.low > 0.0 || wrong == Wrong::SquareOfLowEnd {
            self.low * self.low
        } else if self.high < 0.0 {
            self.high * self.high
        } else {
            0.0
        }
    }

    /// What a span of parameters has of those that count; an end that is no number becomes the end of these.
    fn inside(self) -> Span {
        let low = if self.low > NEAR_END { self.low } else { NEAR_END };
        Span { low, high: if self.high < FAR_END { self.high } else { FAR_END } }
    }
}

/// What no square of a distance is below, for points so far from the edge's start and parameters of a span.
fn least_off(way: Bounds, along: Point, t: Span, wrong: Wrong) -> f64 {
    let axis = |k: usize| way[k].minus(t.times(along[k], wrong), wrong).least_square(wrong);
    match wrong {
        Wrong::OneAxisTwice => axis(0) + axis(1) + axis(1),
        _ => axis(0) + axis(1) + axis(2),
    }
}

/// A span without one of its ends, if that is what is wrong.
fn cut(span: Span, wrong: Wrong) -> Span {
    match wrong {
        Wrong::UpperEndLeftOut => Span { high: span.low, ..span },
        Wrong::LowerEndLeftOut => Span { low: span.high, ..span },
        _ => span,
    }
}

/// Whether no point of a box is so near an edge that the square of its distance isn't above a number; if not, some may be.
pub fn is_far(bounds: &Bounds, edge: &Edge, beyond: f64, wrong: Wrong) -> bool {
    let start = if wrong == Wrong::StartNotTakenAway { [0.0; 3] } else { edge.start };
    let way = [0, 1, 2].map(|k| bounds[k].less(start[k]));
    if least_off(way, edge.along, cut(Span { low: NEAR_END, high: FAR_END }, wrong), wrong) > beyond {
        return true;
    }
    let [x, y, z] = [0, 1, 2].map(|k| way[k].times(edge.along[k], wrong));
    let sum = x.plus(y).plus(z);
    let t = if wrong == Wrong::ParameterNotDivided { sum } else { sum.over(edge.squared) }.inside();
    let t = if wrong == Wrong::EndOfParameterLeftOut { Span { high: t.low, ..t } } else { t };
    t.low > t.high || least_off(way, edge.along, t, wrong) > beyond
}
