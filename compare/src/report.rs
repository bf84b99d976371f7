//! A difference, shown with the smallest list that still has one.
use crate::both::Both;
use lists::shrink::shrink;
use lists::{Call, text};

pub fn report(calls: &[Call], what: &str, both: &mut Both) {
    println!("a difference in a list of {} calls: {what}", calls.len());
    let smallest = shrink(calls, |list| both.difference(list).is_some());
    let still = both.difference(&smallest).expect("the shrunk list differs");
    println!("the smallest list found that differs, as the program sangvireb reads it:\n{}{still}", text(&smallest));
}

#[cfg(test)]
mod tests {
    use super::*;
    use lists::fields::without_calls;
    use lists::lent::Lent;
    use lists::rng::Rng;
    use lists::shapes::Shape;

    /// A slip: a use that comes after a removed predecessor answers the wrong value.
    fn wrong_after_removal(calls: &[Call], lent: &mut Lent) {
        let accepted = |kind: u32, from: usize| (from..calls.len()).find(|&i| calls[i][0] == kind && lent.tables[0][i] == 0);
        if let Some(used) = accepted(10, 0).and_then(|removed| accepted(6, removed)) {
            lent.tables[1][used] ^= 1;
        }
    }

    /// Another: an argument of the second destination or a later one is lost.
    fn lost_argument(_: &[Call], lent: &mut Lent) {
        use sangvireb::raw::*;
        for row in 0..BLOCKS * DESTS {
            let start = ARG_ROWS + PARAM_ROW * row;
            if row % DESTS > 0 && lent.tables[3][start] > 0 {
                lent.tables[3][start] -= 1;
                return;
            }
        }
    }

    fn smallest_with(plant: fn(&[Call], &mut Lent)) -> Vec<Call> {
        let mut both = Both::new(3);
        both.planted = Some(Box::new(plant));
        let mut rng = Rng::new(5);
        loop {
            let calls = lists::random(Shape::Dense, &mut both.lent, &mut rng);
            if both.difference(&calls).is_some() {
                return shrink(&calls, |list| both.difference(list).is_some());
            }
        }
    }

    #[test]
    fn a_planted_difference_is_found_and_shrunk() {
        let mut smallest = smallest_with(wrong_after_removal);
        smallest.sort();
        let kinds: Vec<u32> = smallest.iter().map(|call| call[0]).collect();
        assert_eq!(kinds, [1, 2, 6, 7, 8, 9, 10]);
        assert!(smallest.iter().all(|call| call[1..] == [0, 0, 0]));
    }

    #[test]
    fn of_a_shrunk_list_no_call_can_be_left_out() {
        let smallest = smallest_with(lost_argument);
        assert!(smallest.len() <= 20, "{}", text(&smallest));
        let mut both = Both::new(3);
        both.planted = Some(Box::new(lost_argument));
        assert!((0..smallest.len()).all(|i| both.difference(&without_calls(&smallest, i, 1)).is_none()));
    }

    #[test]
    fn without_a_plant_nothing_differs() {
        let mut both = Both::new(3);
        let mut rng = Rng::new(5);
        for _ in 0..50 {
            let calls = lists::random(Shape::Dense, &mut both.lent, &mut rng);
            assert_eq!(both.difference(&calls), None);
        }
    }
}
