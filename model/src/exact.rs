//! Exact seconds. A time is a fraction plus the root of a fraction; two times are compared by squares.

use std::cmp::Ordering;
use std::ops::{Add, Mul, Neg, Sub};

/// A fraction in lowest terms; the lower number is above 0.
#[derive(Clone, Copy, PartialEq, Eq, Debug)]
pub struct Fraction {
    upper: i128,
    lower: i128,
}

fn common_divisor(a: i128, b: i128) -> i128 {
    if b == 0 { a.abs() } else { common_divisor(b, a % b) }
}

/// upper / lower, for a lower number above 0.
pub fn fraction(upper: i128, lower: i128) -> Fraction {
    assert!(lower > 0);
    let d = common_divisor(upper, lower);
    Fraction { upper: upper / d, lower: lower / d }
}

pub fn whole(n: i128) -> Fraction {
    fraction(n, 1)
}

impl Fraction {
    /// Rounded up: the least whole number that is not below it.
    pub fn up(self) -> i128 {
        -(-self.upper).div_euclid(self.lower)
    }
}

impl Add for Fraction {
    type Output = Fraction;
    fn add(self, o: Fraction) -> Fraction {
        fraction(self.upper * o.lower + o.upper * self.lower, self.lower * o.lower)
    }
}

impl Neg for Fraction {
    type Output = Fraction;
    fn neg(self) -> Fraction {
        fraction(-self.upper, self.lower)
    }
}

impl Sub for Fraction {
    type Output = Fraction;
    fn sub(self, o: Fraction) -> Fraction {
        self + (-o)
    }
}

impl Mul for Fraction {
    type Output = Fraction;
    fn mul(self, o: Fraction) -> Fraction {
        fraction(self.upper * o.upper, self.lower * o.lower)
    }
}

impl PartialOrd for Fraction {
    fn partial_cmp(&self, o: &Fraction) -> Option<Ordering> {
        Some(self.cmp(o))
    }
}

impl Ord for Fraction {
    fn cmp(&self, o: &Fraction) -> Ordering {
        (self.upper * o.lower).cmp(&(o.upper * self.lower))
    }
}

/// The time `plain` + root of `under_root` (which is 0 where there is no root).
#[derive(Clone, Copy, PartialEq, Eq, Debug)]
pub struct Time {
    plain: Fraction,
    under_root: Fraction,
}

impl Time {
    pub fn plain(f: Fraction) -> Time {
        Time { plain: f, under_root: whole(0) }
    }

    pub fn root(f: Fraction) -> Time {
        assert!(f >= whole(0));
        Time { plain: whole(0), under_root: f }
    }

    /// The same time, a whole number of seconds later (or earlier, below 0).
    pub fn later(self, seconds: i128) -> Time {
        Time { plain: self.plain + whole(seconds), ..self }
    }

    /// Is this time no later than the other? With x and y under the roots:
    /// plain + root x <= other plain + root y, that is root x <= k + root y.
    pub fn no_later_than(self, other: Time) -> bool {
        let (x, y) = (self.under_root, other.under_root);
        let k = other.plain - self.plain;
        let zero = whole(0);
        let four = whole(4);
        if k >= zero {
            // Both sides are at least 0. Squared: x <= k*k + y + 2*k*root y, that is d <= 2*k*root y.
            let d = x - k * k - y;
            d <= zero || d * d <= four * k * k * y
        } else {
            // root x - k <= root y, both sides at least 0. Squared: 2*(-k)*root x <= y - x - k*k.
            let d = y - x - k * k;
            d >= zero && four * k * k * x <= d * d
        }
    }

    /// The larger of the two times.
    pub fn max(self, other: Time) -> Time {
        if self.no_later_than(other) { other } else { self }
    }

    /// For tests only: about how much it is.
    pub fn about(self) -> f64 {
        let f = |v: Fraction| v.upper as f64 / v.lower as f64;
        f(self.plain) + f(self.under_root).sqrt()
    }
}
