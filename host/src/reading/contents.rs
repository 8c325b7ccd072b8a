//! Sets of contents: what one variable may hold, as null or not and ranges of values.

use super::sheet::{Kind, Test};

/// A set of contents: null or not, and disjoint ranges of values, ends included, ascending.
#[derive(Clone, Debug, PartialEq, Eq)]
pub struct Contents {
    null: bool,
    ranges: Vec<(i64, i64)>,
}

impl Contents {
    /// "It holds null or a value of its kind."
    pub fn of_kind(kind: Kind) -> Self {
        Contents { null: true, ranges: vec![kind.range()] }
    }

    pub fn null() -> Self {
        Contents { null: true, ranges: vec![] }
    }

    /// The contents with which a test other than equality is met.
    pub fn meeting(test: &Test, kind: Kind) -> Self {
        let (least, greatest) = kind.range();
        let ranges = match test {
            Test::Equals(_) => unreachable!("an equality speaks of two variables"),
            Test::In(list) => points(list),
            Test::NotIn(list) => gaps(&points(list), kind),
            Test::AtMost(bound) => vec![(least, *bound)],
            Test::AtLeast(bound) => vec![(*bound, greatest)],
            Test::Below(bound) => bound.checked_sub(1).map(|last| (least, last)).into_iter().collect(),
            Test::Above(bound) => bound.checked_add(1).map(|first| (first, greatest)).into_iter().collect(),
            Test::IsNull => return Contents::null(),
            Test::IsNotNull => vec![(least, greatest)],
        };
        Contents { null: false, ranges }
    }

    /// All contents of the kind that aren't in the set.
    pub fn others(&self, kind: Kind) -> Self {
        Contents { null: !self.null, ranges: gaps(&self.ranges, kind) }
    }

    /// What is in both sets: the ranges are walked side by side, the one that ends first giving way.
    pub fn common(&self, other: &Contents) -> Self {
        let (mut one, mut two) = (self.ranges.as_slice(), other.ranges.as_slice());
        let mut ranges = Vec::new();
        while let (&[(a, b), ref after_one @ ..], &[(c, d), ref after_two @ ..]) = (one, two) {
            if a.max(c) <= b.min(d) {
                ranges.push((a.max(c), b.min(d)));
            }
            if b <= d {
                one = after_one;
            } else {
                two = after_two;
            }
        }
        Contents { null: self.null && other.null, ranges }
    }

    /// The set without null.
    pub fn values(mut self) -> Self {
        self.null = false;
        self
    }

    pub fn is_empty(&self) -> bool {
        !self.null && self.ranges.is_empty()
    }

    /// Is there exactly one content in the set?
    pub fn is_single(&self) -> bool {
        match self.ranges[..] {
            [] => self.null,
            [(first, last)] => !self.null && first == last,
            _ => false,
        }
    }
}

/// The list's values as ranges of one value.
fn points(list: &[i64]) -> Vec<(i64, i64)> {
    let mut sorted = list.to_vec();
    sorted.sort_unstable();
    sorted.dedup();
    sorted.into_iter().map(|value| (value, value)).collect()
}

/// The values of the kind between ascending ranges. Bounds are kept wide, so that one past the last
/// 64-bit value is a number too.
fn gaps(ranges: &[(i64, i64)], kind: Kind) -> Vec<(i64, i64)> {
    let (least, greatest) = kind.range();
    let mut free = i128::from(least);
    let mut found = Vec::new();
    for &(first, last) in ranges {
        if free < i128::from(first) {
            found.push((free as i64, first - 1));
        }
        free = i128::from(last) + 1;
    }
    if free <= i128::from(greatest) {
        found.push((free as i64, greatest));
    }
    found
}

#[cfg(test)]
mod tests {
    use super::*;

    #[test]
    fn the_ends_of_the_integers() {
        let above = Contents::meeting(&Test::Above(i64::MAX), Kind::Integer);
        let below = Contents::meeting(&Test::Below(i64::MIN), Kind::Integer);
        assert!(above.is_empty() && below.is_empty());
        assert!(Contents::meeting(&Test::AtLeast(i64::MAX), Kind::Integer).is_single());
        let ends = Contents::meeting(&Test::NotIn(vec![i64::MAX, i64::MIN]), Kind::Integer);
        assert_eq!(ends.ranges, [(i64::MIN + 1, i64::MAX - 1)]);
        assert_eq!(ends.others(Kind::Integer).ranges, [(i64::MIN, i64::MIN), (i64::MAX, i64::MAX)]);
        assert!(ends.others(Kind::Integer).null);
    }

    #[test]
    fn a_boolean_without_its_two_values() {
        let not_false = Contents::meeting(&Test::NotIn(vec![0]), Kind::Boolean);
        let not_true = Contents::meeting(&Test::NotIn(vec![1, 1]), Kind::Boolean);
        assert!(not_false.is_single() && not_true.is_single());
        assert!(not_false.common(&not_true).is_empty());
        assert!(!Contents::of_kind(Kind::Boolean).is_single());
        assert!(Contents::null().is_single());
    }
}
