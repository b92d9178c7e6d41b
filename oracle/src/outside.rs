//! Where the original and document 01 part, outside the comparison domain: each with its smallest input.
//! The domain, the last paragraph of "Refusal numbers", leaves these out because of what stands here.

use crate::config::{MemberConfig, TypeConfig};
use crate::model::{Atomic, Ty, Types};
use serde_json::{Value as Json, json};

fn built(types: &[TypeConfig]) -> Option<Types> {
    Types::build(types).ok()
}

fn holding(data_type: &str, dim: u32) -> Types {
    built(&[TypeConfig::udt("T", [MemberConfig::array("a", data_type, dim)])]).expect("it is accepted")
}

/// What the original leaves of an image of `FF` bytes, and whether it took the value of member `a`.
fn write(data_type: &str, dim: u32, value: Json) -> (bool, Vec<u8>) {
    let types = holding(data_type, dim);
    let mut image = vec![0xFF; types.size(Ty::Struct(4))];
    let done = types.encode(Ty::Struct(4), &json!({ "a": value }), &mut image);
    (done.is_ok(), image)
}

/// The document lets null keep what stands, for a BOOL member too.
#[test]
fn null_for_a_bool_member_is_refused() {
    assert!(!write("BOOL", 0, Json::Null).0);
    assert!(write("SINT", 0, Json::Null).0);
}

/// The document refuses these with 18: another kind of entry at an atomic.
#[test]
fn other_kinds_at_an_atomic_are_taken() {
    assert_eq!(write("BOOL", 0, json!(2)), (true, vec![0xFF; 4]));
    assert_eq!(write("BOOL", 0, json!(0.0)), (true, vec![0xFE, 0xFF, 0xFF, 0xFF]));
    assert_eq!(write("SINT", 0, json!(true)), (true, vec![1, 0xFF, 0xFF, 0xFF]));
    assert_eq!(write("REAL", 0, json!(1)), (true, 1f32.to_le_bytes().to_vec()));
    assert_eq!(write("REAL", 0, json!(0.1)), (true, 0.1f32.to_le_bytes().to_vec()));
    assert_eq!(write("BYTE", 0, json!(true)), (true, vec![1, 0xFF, 0xFF, 0xFF]));
    assert_eq!(write("BYTE", 0, json!([1, 0, 2.5])), (true, vec![5, 0xFF, 0xFF, 0xFF]));
}

/// The document refuses these with 18: the original flattens lists and takes a bare value for a list of one.
#[test]
fn bare_values_and_nested_lists_are_taken() {
    assert_eq!(write("SINT", 4, json!(7)), (true, vec![7, 0xFF, 0xFF, 0xFF]));
    assert_eq!(write("SINT", 4, json!([[1, [2]], [], 3])), (true, vec![1, 2, 3, 0xFF]));
    assert_eq!(write("BYTE", 0, json!([[true], [true]])), (true, vec![3, 0xFF, 0xFF, 0xFF]));
    assert_eq!(write("BYTE", 4, json!(true)), (true, vec![0xFF; 4]));
    assert_eq!(write("STRING", 1, json!("x")).1[..6], [1, 0, 0, 0, b'x', 0]);
}

/// The document refuses a mixture with 18. Here one number turns bools from bits into whole bit strings.
#[test]
fn bools_among_numbers_are_taken_as_numbers() {
    assert_eq!(write("BYTE", 4, json!([true, false])), (true, vec![0xFD, 0xFF, 0xFF, 0xFF]));
    assert_eq!(write("BYTE", 4, json!([true, 5])), (true, vec![1, 5, 0xFF, 0xFF]));
    assert_eq!(write("BYTE", 4, json!([true, null])), (true, vec![1, 0xFF, 0xFF, 0xFF]));
}

/// The document writes nothing before the last entry is checked.
#[test]
fn a_refused_write_leaves_a_part() {
    assert_eq!(write("SINT", 4, json!([1, 2, 300])), (false, vec![1, 2, 0xFF, 0xFF]));
}

/// The document reads and keeps the bits of every REAL; JSON has no number for these.
#[test]
fn a_float_that_is_not_finite_is_read_as_null() {
    let types = Types::default();
    let real = Ty::Atomic(Atomic::Real);
    assert_eq!(types.decode(real, &f32::NAN.to_le_bytes()), Json::Null);
    assert_eq!(types.decode(real, &f32::INFINITY.to_le_bytes()), Json::Null);
}

/// The document's stream gives both members their entries; JSON has one place for the two.
#[test]
fn a_declared_enable_in_hides_the_first() {
    let types = built(&[TypeConfig::aoi("A", [MemberConfig::new("EnableIn", "BOOL")])]).expect("it is accepted");
    assert_eq!(types.decode(Ty::Struct(4), &[1, 0, 0, 0]), json!({ "EnableIn": false, "EnableOut": false }));
    assert_eq!(types.decode(Ty::Struct(4), &[4, 0, 0, 0]), json!({ "EnableIn": true, "EnableOut": false }));
    let mut image = vec![0; 4];
    types.encode(Ty::Struct(4), &json!({ "EnableIn": true }), &mut image).expect("it is taken");
    assert_eq!(image, [1, 0, 0, 0]);
}

/// The added part of refusal 2: the original takes any name that is not empty, and cuts a host's name by characters.
#[test]
fn names_outside_the_rule_are_taken() {
    for name in ["a b", "a;b", "\u{e9}", "n".repeat(41).as_str()] {
        assert!(built(&[TypeConfig::udt(name, [])]).is_some());
        assert!(built(&[TypeConfig::udt("T", [MemberConfig::new(name, "DINT")])]).is_some());
    }
    let types = built(&[TypeConfig::udt(&"\u{e9}".repeat(11), [MemberConfig::new("a", "BOOL")])]).expect("taken");
    assert_eq!(types.def(4).members[0].name.len(), 10 + 20 + 1);
}

/// Refusal 13: the original's tables grow.
#[test]
fn more_than_the_tables_hold_is_taken() {
    let types: Vec<_> = (0..197).map(|i| TypeConfig::udt(&format!("T{i}"), [])).collect();
    assert_eq!(built(&types).map(|t| t.defs.len()), Some(201));
    let members: Vec<_> = (0..1_974).map(|i| MemberConfig::new(&format!("m{i}"), "SINT")).collect();
    assert!(built(&[TypeConfig::udt("T", members)]).is_some());
}
