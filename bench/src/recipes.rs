//! Short lists, as a press's recipe gives them: a reading, converted on one of two ways, so many times in turn.
use crate::draft::Draft;
use lists::Call;

pub fn recipe(conversions: u32) -> Vec<Call> {
    let mut draft = Draft::new(2 * conversions + 1, 1);
    draft.define(0, 0);
    for start in (0..conversions).map(|i| 2 * i) {
        let (convert, join) = (start + 1, start + 2);
        draft.define(0, convert);
        draft.branch(start, &[convert, join]);
        draft.branch(convert, &[join]);
    }
    draft.seal_all();
    for i in 0..=conversions {
        draft.read(0, 2 * i);
    }
    draft.finish()
}
