//! Document 02's two replacements in the published text's bodies.

use image::kinds::{ARRAY, BIND, BY_VALUE, INT, LIT, RANGE, REST, SLICE, SLICE_TYPE, WILD};
use image::{ABSENT, Tables};
use published::parameters::{Parameters, Setting, lower_parameters};
use published::{Answer, How, Outcome};

/// The lines of a listing that set a local, and whether anything was replaced.
fn sets(outcome: Outcome) -> (Vec<String>, bool) {
    let Answer::Listing(listing) = outcome.answer else { panic!("{:?}", outcome.answer) };
    let lines = listing.lines().filter(|line| line.starts_with("set ")).map(str::to_owned);
    (lines.collect(), outcome.changed.replaced)
}

fn lowered(m: &Tables, assigns: bool) -> (Vec<String>, bool) {
    assert!(image::keeps_all_rules(m));
    let root = m.patterns.len() - 1;
    let place_type = m.root_type(root).expect("a type for the place");
    sets(published::lower(m, place_type, How { assigns, ..How::default() }))
}

fn with_u8() -> Tables {
    let mut m = Tables::default();
    m.add_integer_type(1, 0);
    m
}

fn operand(m: &mut Tables, value: i128) -> u16 {
    m.add_operand(INT, &value.to_le_bytes())
}

fn range(start: Option<i128>, end: Option<i128>, flag: u16) -> Tables {
    let mut m = with_u8();
    let mut word = |end: Option<i128>| end.map_or(ABSENT, |value| operand(&mut m, value));
    let words = [word(start), word(end), flag, 0];
    m.add_pattern(RANGE, 0, 0, words);
    m
}

fn bind(m: &mut Tables) -> u16 {
    let binding = m.add_binding(0, 1);
    m.add_pattern(BIND, 0, 0, [binding, ABSENT, BY_VALUE, 0])
}

/// A slice pattern whose items all stand behind its rest.
fn suffix(m: &mut Tables, type_: u16, items: &[u16]) -> u16 {
    let rest = m.add_pattern(REST, type_, 0, [0; 4]);
    let list = m.add_words(items);
    m.add_pattern(SLICE, type_, 0, [list, 0, items.len() as u16, rest])
}

#[test]
fn a_half_open_range_tests_gt() {
    let both = ["set 1 le 01 copy 0", "set 2 gt 04 copy 0"].map(str::to_owned).to_vec();
    assert_eq!(lowered(&range(Some(1), Some(4), 1), false), (both, true));
    assert_eq!(lowered(&range(None, Some(4), 1), false), (vec!["set 1 gt 04 copy 0".to_owned()], true));
}

#[test]
fn any_other_range_stays() {
    let closed = ["set 1 le 01 copy 0", "set 2 ge 04 copy 0"].map(str::to_owned).to_vec();
    assert_eq!(lowered(&range(Some(1), Some(4), 0), false), (closed.clone(), false));
    assert_eq!(lowered(&range(Some(1), Some(4), 2), false), (closed, false));
    assert_eq!(lowered(&range(Some(1), None, 1), false), (vec!["set 1 le 01 copy 0".to_owned()], false));
}

#[test]
fn suffix_items_count_from_the_end() {
    let mut m = with_u8();
    let three = m.add_type(ARRAY, 0, 3, 0, 1);
    let items = [bind(&mut m), bind(&mut m), bind(&mut m)];
    suffix(&mut m, three, &items);
    let bound = ["set 1 copy 0.e2", "set 2 copy 0.e1", "set 3 copy 0.e0"].map(str::to_owned).to_vec();
    assert_eq!(lowered(&m, false), (bound.clone(), true));
    assert_eq!(lowered(&m, true), (bound, true));
}

#[test]
fn one_suffix_item_stays() {
    let mut m = with_u8();
    let three = m.add_type(ARRAY, 0, 3, 0, 1);
    let last = bind(&mut m);
    suffix(&mut m, three, &[last]);
    assert_eq!(lowered(&m, false), (vec!["set 1 copy 0.e0".to_owned()], false));
}

#[test]
fn each_offset_is_that_of_its_own_item() {
    let mut m = with_u8();
    let legs = m.add_type(SLICE_TYPE, 0, 0, 0, 0);
    let races = m.add_type(ARRAY, legs, 4, 0, 1);
    let seven = operand(&mut m, 7);
    let items = [m.add_pattern(LIT, 0, 0, [seven, 0, 0, 0]), bind(&mut m), m.add_pattern(WILD, 0, 0, [0; 4])];
    let inner = suffix(&mut m, legs, &items);
    let wild = |m: &mut Tables| m.add_pattern(WILD, legs, 0, [0; 4]);
    let outer = [wild(&mut m), inner, wild(&mut m), wild(&mut m)];
    suffix(&mut m, races, &outer);
    let sets = [
        "set 2 len 0.e2",
        "set 3 le 0300000000000000 copy 2",
        "set 4 eq 07 copy 0.e2.e2",
        "set 1 copy 0.e2.e1",
    ];
    assert_eq!(lowered(&m, false), (sets.map(str::to_owned).to_vec(), true));
}

/// A pattern that is a parameter, and a part of another one.
#[test]
fn the_way_starts_at_the_root_that_was_walked() {
    let mut m = with_u8();
    let three = m.add_type(ARRAY, 0, 3, 0, 1);
    let seven = operand(&mut m, 7);
    let item = m.add_pattern(LIT, 0, 0, [seven, 0, 0, 0]);
    let last = m.add_pattern(WILD, 0, 0, [0; 4]);
    let whole = suffix(&mut m, three, &[item, last]);
    assert!(image::keeps_all_rules(&m));
    let list = vec![(item, 0), (whole, three), (item, 0)];
    let parameters = Parameters { scopes: 1, list, ..Parameters::default() };
    let expected = ["set 3 eq 07 copy 0", "set 4 eq 07 copy 1.e1", "set 5 eq 07 copy 2"];
    let outcome = lower_parameters(&m, &parameters, Setting::default());
    assert_eq!(sets(outcome), (expected.map(str::to_owned).to_vec(), true));
}
