//! Document 02's discriminant locals in the published text's bodies.

use image::kinds::{BIND, BY_REF, ENUM, INT, LIT, NAMES_VARIANT, OR, PATH, TUPLE, TUPLE_STRUCT, WILD};
use image::{ABSENT, Tables};
use published::parameters::{After, Parameters, Setting, lower_parameters};
use published::trace::Trace;
use published::{Answer, How, Outcome};

/// An enum of `Some(u8)` and `None`, type 1.
fn with_option() -> Tables {
    let mut m = Tables::default();
    m.add_integer_type(1, 0);
    m.add_variant(&[0], 1);
    m.add_variant(&[], 0);
    m.add_adt(ENUM, 0, 2);
    m
}

fn none(m: &mut Tables) -> u16 {
    m.add_pattern(PATH, 1, 0, [NAMES_VARIANT, 1, 0, 0])
}

fn some(m: &mut Tables, inner: u16) -> u16 {
    let list = m.add_words(&[inner]);
    m.add_pattern(TUPLE_STRUCT, 1, 0, [list, 1, ABSENT, 0])
}

fn tuple(m: &mut Tables, items: &[u16]) -> u16 {
    let types: Vec<u16> = items.iter().map(|&item| m.patterns[usize::from(item)][1]).collect();
    let whole = m.add_tuple_type(&types);
    let list = m.add_words(items);
    m.add_pattern(TUPLE, whole, 0, [list, items.len() as u16, ABSENT, 0])
}

fn lowered(m: &Tables, assigns: bool) -> Outcome {
    assert!(image::keeps_all_rules(m));
    let place_type = m.root_type(m.patterns.len() - 1).expect("a type for the place");
    published::lower(m, place_type, How { assigns, ..How::default() })
}

fn listed(outcome: Outcome) -> (Vec<String>, bool) {
    let Answer::Listing(listing) = outcome.answer else { panic!("{:?}", outcome.answer) };
    (listing.lines().map(str::to_owned).collect(), outcome.changed.parted)
}

fn lines(text: &str) -> Vec<String> {
    text.split(", ").map(str::to_owned).collect()
}

#[test]
fn one_test_stays() {
    let mut m = with_option();
    none(&mut m);
    let expected = "then 1 else 2, local 0 t1, local 1 i128, bb 0, live 1, set 1 discr 0, switch 1 0 1 2, bb 1, open, bb 2, open";
    assert_eq!(listed(lowered(&m, false)), (lines(expected), false));
}

#[test]
fn each_of_two_tests_has_its_local() {
    let mut m = with_option();
    let items = [none(&mut m), none(&mut m)];
    tuple(&mut m, &items);
    let expected = "then 3 else 2, local 0 t2, local 1 i128, local 2 i128, \
                    bb 0, live 1, set 1 discr 0.f0, switch 1 0 1 2, \
                    bb 1, live 2, set 2 discr 0.f1, switch 2 0 3 2, bb 2, open, bb 3, open";
    assert_eq!(listed(lowered(&m, false)), (lines(expected), true));
}

/// `(None, 7, None)`: the bool of the test between them keeps its place.
#[test]
fn other_temporaries_are_numbered_between() {
    let mut m = with_option();
    let seven = m.add_operand(INT, &7i128.to_le_bytes());
    let items = [none(&mut m), m.add_pattern(LIT, 0, 0, [seven, 0, 0, 0]), none(&mut m)];
    tuple(&mut m, &items);
    let expected = "then 4 else 2, local 0 t2, local 1 i128, local 2 bool, local 3 i128, \
                    bb 0, live 1, set 1 discr 0.f0, switch 1 0 1 2, \
                    bb 1, live 2, set 2 eq 07 copy 0.f1, switch 2 1 3 2, bb 2, open, \
                    bb 3, live 3, set 3 discr 0.f2, switch 3 0 4 2, bb 4, open";
    assert_eq!(listed(lowered(&m, false)), (lines(expected), true));
}

/// Under Assign an Or's alternatives are tested too: `None | Some(_)`.
#[test]
fn an_assignments_tests_have_their_locals() {
    let mut m = with_option();
    let wild = m.add_pattern(WILD, 0, 0, [0; 4]);
    let items = [none(&mut m), some(&mut m, wild)];
    let list = m.add_words(&items);
    m.add_pattern(OR, 1, 0, [list, 2, 0, 0]);
    let (mut found, parted) = listed(lowered(&m, true));
    found.retain(|line| line.starts_with("set "));
    assert_eq!((found, parted), (lines("set 1 discr 0, set 2 discr 0"), true));
}

fn parameters(m: &Tables, list: &[(u16, u16)], after: After) -> (Vec<String>, bool) {
    assert!(image::keeps_all_rules(m));
    let parameters = Parameters { scopes: 1, list: list.to_vec(), ..Parameters::default() };
    listed(lower_parameters(m, &parameters, Setting { after, ..Setting::default() }))
}

/// `ref x @ Some(_)` and `None`: the entries are in the order in which locals are live.
#[test]
fn entries_are_in_the_order_of_live_marks() {
    let mut m = with_option();
    let wild = m.add_pattern(WILD, 0, 0, [0; 4]);
    let item = some(&mut m, wild);
    let x = m.add_binding(1, 1);
    let first = m.add_pattern(BIND, 1, 0, [x, item, BY_REF, 2]);
    let second = none(&mut m);
    let (found, parted) = parameters(&m, &[(first, 1), (second, 1)], After::Nothing);
    assert_eq!(found.last().map(String::as_str), Some("entries 0 1 3 2 4"));
    assert!(parted);
}

/// What is dropped after it is dropped of the body that has the new locals.
#[test]
fn what_is_dropped_has_the_new_locals() {
    let mut m = with_option();
    let list = [(none(&mut m), 1), (none(&mut m), 1)];
    let (mut found, parted) = parameters(&m, &list, After::DropUntilScope);
    found.retain(|line| line.starts_with("dead "));
    assert_eq!((found, parted), (lines("dead 3, dead 2, dead 1, dead 0"), true));
}

/// What is heard of a tuple of so many tests of a variant, with so many bindings.
fn heard(tests: usize, bindings: usize) -> Trace {
    let mut m = with_option();
    m.bindings.resize(bindings, [0, 1]);
    let items: Vec<u16> = (0..tests).map(|_| none(&mut m)).collect();
    tuple(&mut m, &items);
    lowered(&m, false).trace
}

#[test]
fn each_test_counts_a_local_an_entry_and_two_statements() {
    let last = heard(255, 256);
    assert_eq!((last.locals, last.entries, last.statements, last.passed), (512, 255, 510, None));
    assert_eq!(heard(256, 256).passed, Some(Some(255)));
}
