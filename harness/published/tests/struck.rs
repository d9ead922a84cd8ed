//! Document 02's one drop per local in the published text's scopes.

use image::kinds::{BIND, BY_VALUE, ENUM, OR, STRUCT, TUPLE_STRUCT};
use image::{ABSENT, Tables};
use published::Answer;
use published::calls::{Call, CallAnswer, Handed, Made, call};
use published::parameters::{After, Parameters, Setting, lower_parameters};

/// `Entered(names) | Withdrawn(names)`: types 1 and 2 are a name list, which is not copy, and the enum.
fn name_list() -> Tables {
    let mut m = Tables::default();
    m.add_integer_type(1, 0);
    m.add_variant(&[0], 0);
    m.add_adt(STRUCT, 0, 1);
    m.add_variant(&[1], 0);
    m.add_variant(&[1], 1);
    m.add_adt(ENUM, 1, 2);
    let names = m.add_binding(1, 1);
    let mut either = Vec::new();
    for variant in [1, 2] {
        let item = m.add_pattern(BIND, 1, 0, [names, ABSENT, BY_VALUE, 0]);
        let list = m.add_words(&[item]);
        either.push(m.add_pattern(TUPLE_STRUCT, 2, 0, [list, 1, ABSENT, variant]));
    }
    let list = m.add_words(&either);
    m.add_pattern(OR, 2, 0, [list, 2, 0, 0]);
    m
}

/// Local 0 is the enum's, local 1 the binding's, and the scopes hold these.
fn called(m: &Tables, scopes: &[&[usize]], asked: Call) -> Made {
    assert!(image::keeps_all_rules(m));
    let scopes = scopes.iter().map(|scope| scope.to_vec()).collect();
    let handed =
        Handed { blocks: 1, locals: vec![2, 1], scopes, bindings: vec![Some(1)], ..Handed::default() };
    call(m, &handed, asked)
}

/// The scopes after the match, and how many entries were struck out.
fn matched(scopes: &[&[usize]]) -> (Vec<Vec<usize>>, usize) {
    let made = called(&name_list(), scopes, Call::PatternMatch(4, 0, None));
    (made.scopes, made.struck)
}

#[test]
fn two_alternatives_leave_one_entry() {
    assert_eq!(matched(&[&[]]), (vec![vec![2, 3, 4, 1, 5]], 1));
}

#[test]
fn a_local_that_is_held_gets_no_entry() {
    assert_eq!(matched(&[&[1]]), (vec![vec![1, 2, 3, 4, 5]], 2));
    assert_eq!(matched(&[&[0, 1], &[]]), (vec![vec![0, 1], vec![2, 3, 4, 5]], 2));
    assert_eq!(matched(&[&[1], &[0], &[0]]), (vec![vec![1], vec![0], vec![0, 2, 3, 4, 5]], 2));
}

#[test]
fn what_was_handed_in_stays() {
    assert_eq!(matched(&[&[1, 1], &[0, 0, 1]]), (vec![vec![1, 1], vec![0, 0, 1, 2, 3, 4, 5]], 2));
}

#[test]
fn self_is_recorded_once() {
    let once = |scopes: &[&[usize]]| {
        let made = called(&name_list(), scopes, Call::MatchSelfParam(0, 0, 0));
        (made.scopes, made.struck)
    };
    assert_eq!(once(&[&[0]]), (vec![vec![0, 1]], 0));
    assert_eq!(once(&[&[1], &[0]]), (vec![vec![1], vec![0]], 1));
}

#[test]
fn a_temporary_is_recorded() {
    let made = called(&name_list(), &[&[0, 1, 0]], Call::Temp(0, 0));
    assert_eq!((made.answer, made.scopes, made.struck), (CallAnswer::Local(2), vec![vec![0, 1, 0, 2]], 0));
}

#[test]
fn what_is_dropped_was_recorded() {
    let made = called(&name_list(), &[&[1, 1]], Call::PopAndDrop(0));
    assert_eq!((made.answer, made.statements.len()), (CallAnswer::Block(Some(2)), 2));
}

/// Parameters: the name list is dropped once, behind the live marks of both alternatives.
#[test]
fn a_parameter_drops_its_binding_once() {
    let m = name_list();
    let parameters = Parameters { scopes: 1, list: vec![(4, 2)], ..Parameters::default() };
    let outcome =
        lower_parameters(&m, &parameters, Setting { after: After::PopAndDrop, ..Setting::default() });
    assert!(outcome.changed.struck);
    let Answer::Listing(listing) = outcome.answer else { panic!("{:?}", outcome.answer) };
    let drops: Vec<&str> = listing.lines().filter(|line| line.starts_with("drop ")).collect();
    assert_eq!(drops, ["drop 1 12", "drop 0 13"]);
    assert_eq!(listing.lines().filter(|line| *line == "live 1").count(), 2);
}

/// A limit of entries is passed by the live mark of a local that no scope holds, and by no other.
#[test]
fn a_held_local_passes_no_limit() {
    let mut m = Tables::default();
    m.add_integer_type(1, 0);
    m.add_binding(0, 1);
    m.add_pattern(BIND, 0, 0, [0, ABSENT, BY_VALUE, 0]);
    let passed = |scopes: Vec<Vec<usize>>| {
        let handed =
            Handed { blocks: 1, locals: vec![0, 0], scopes, bindings: vec![Some(1)], ..Handed::default() };
        let made = call(&m, &handed, Call::PatternMatch(0, 0, None));
        made.outcome.expect("a call on a pattern has one").trace.passed
    };
    assert_eq!(passed(vec![vec![0; 1024]]), Some(Some(0)));
    assert_eq!(passed(vec![vec![0; 1023]]), None);
    assert_eq!(passed(vec![[vec![1], vec![0; 1022]].concat(), vec![0]]), None);
}
