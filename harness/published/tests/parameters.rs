//! Document 01's corners on parameters, with the published text.

use image::kinds::{BIND, BY_REF, BY_VALUE, ENUM, LIT, TUPLE_STRUCT, UINT, WILD};
use image::{ABSENT, Tables};
use published::Answer;
use published::parameters::{Parameters, Setting, lower_parameters};

fn listing(m: &Tables, parameters: Parameters) -> Answer {
    assert!(image::keeps_all_rules(m));
    lower_parameters(m, &parameters, Setting::default()).answer
}

fn with_u8() -> Tables {
    let mut m = Tables::default();
    m.add_integer_type(1, 0);
    m
}

fn of_one(pattern: u16, type_: u16) -> Parameters {
    Parameters { scopes: 1, list: vec![(pattern, type_)], ..Parameters::default() }
}

#[test]
fn a_plain_parameter_is_its_local() {
    let mut m = with_u8();
    let x = m.add_binding(0, 1);
    let p = m.add_pattern(BIND, 0, 0, [x, ABSENT, BY_VALUE, 0]);
    let expected = "then 0 else -\nlocal 0 t0\nbb 0\nopen\nparams 0\nbindings 0\nentries 0\n";
    assert_eq!(listing(&m, of_one(p, 0)), Answer::Listing(expected.into()));
}

#[test]
fn a_parameter_by_reference_has_a_local_of_its_own() {
    let mut m = with_u8();
    let x = m.add_binding(0, 1);
    let p = m.add_pattern(BIND, 0, 0, [x, ABSENT, BY_REF, 2]);
    let expected = "then 0 else -\nlocal 0 t0\nlocal 1 t0\nbb 0\nlive 1\nset 1 ref 0\nopen\n\
                    params 0\nbindings 1\nentries 0 1\n";
    assert_eq!(listing(&m, of_one(p, 0)), Answer::Listing(expected.into()));
}

#[test]
fn a_parameter_with_a_subpattern_has_a_local_of_its_own() {
    let mut m = with_u8();
    let some = m.add_variant(&[0], 1);
    let maybe = m.add_adt(ENUM, some, 1);
    let inner = m.add_pattern(WILD, 0, 0, [0; 4]);
    let list = m.add_words(&[inner]);
    let sub = m.add_pattern(TUPLE_STRUCT, maybe, 0, [list, 1, ABSENT, some]);
    let x = m.add_binding(maybe, 1);
    let p = m.add_pattern(BIND, maybe, 0, [x, sub, BY_VALUE, 0]);
    let expected = "then 1 else -\nlocal 0 t1\nlocal 1 t1\nlocal 2 i128\nbb 0\nlive 2\n\
                    set 2 discr 0\nswitch 2 1 1 2\nbb 1\nlive 1\nset 1 copy 0\nopen\nbb 2\nunreachable\n\
                    params 0\nbindings 1\nentries 0 2 1\n";
    assert_eq!(listing(&m, of_one(p, maybe)), Answer::Listing(expected.into()));
}

#[test]
fn the_else_of_a_refutable_parameter_is_unreachable() {
    let mut m = with_u8();
    let seven = m.add_operand(UINT, &7u128.to_le_bytes());
    let p = m.add_pattern(LIT, 0, 0, [seven, 0, 0, 0]);
    let expected = "then 1 else -\nlocal 0 t0\nlocal 1 bool\nbb 0\nlive 1\n\
                    set 1 eq 07 copy 0\nswitch 1 1 1 2\nbb 1\nopen\nbb 2\nunreachable\n\
                    params 0\nbindings\nentries 0 1\n";
    assert_eq!(listing(&m, of_one(p, 0)), Answer::Listing(expected.into()));
}

#[test]
fn a_binding_that_is_not_picked_has_no_local() {
    let mut m = with_u8();
    let x = m.add_binding(0, 0);
    let p = m.add_pattern(BIND, 0, 0, [x, ABSENT, BY_REF, 2]);
    assert_eq!(listing(&m, of_one(p, 0)), Answer::Refused([9, p, 0]));
}

#[test]
fn the_last_of_two_parameters_that_bind_one_binding_wins() {
    let mut m = with_u8();
    let x = m.add_binding(0, 1);
    let first = m.add_pattern(BIND, 0, 0, [x, ABSENT, BY_VALUE, 0]);
    let second = m.add_pattern(BIND, 0, 0, [x, ABSENT, BY_VALUE, 0]);
    let parameters = Parameters { scopes: 1, list: vec![(first, 0), (second, 0)], ..Parameters::default() };
    let expected = "then 0 else -\nlocal 0 t0\nlocal 1 t0\nbb 0\nlive 1\nset 1 copy 0\nopen\n\
                    params 0 1\nbindings 1\nentries 0 1\n";
    assert_eq!(listing(&m, parameters), Answer::Listing(expected.into()));
}
