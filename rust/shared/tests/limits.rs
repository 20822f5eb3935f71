//! The limits, their numbers and how they print.

use shared::{Limit, Refusal};

#[test]
fn numbers_of_limits() {
    for (number, limit) in (1..).zip(Limit::ALL) {
        assert_eq!(limit.number(), number);
        assert_eq!(Limit::from_number(number), Some(limit));
    }
    assert_eq!(Limit::ALL.len(), 16);
    for number in (0..=u8::MAX).filter(|number| !(1..=16).contains(number)) {
        assert_eq!(Limit::from_number(number), None);
    }
}

/// A refusal says its place where its limit has one.
#[test]
fn places_of_limits() {
    for limit in Limit::ALL {
        let place = match limit {
            Limit::UnusedKind => " (record 5)",
            Limit::PointOutside => " (point 5)",
            Limit::PlyVertex => " (vertex 5)",
            Limit::PlyFace => " (face 5)",
            _ => "",
        };
        let said = Refusal { limit, place: 5 }.to_string();
        assert_eq!(said, format!("limit {}: {limit}{place}", limit.number()));
    }
}
