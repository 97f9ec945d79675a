//! The example of this crate prints what the one in C must print.

#[path = "../examples/reserve.rs"]
mod reserve;

#[test]
fn the_example_prints_what_the_one_in_c_prints() {
    let expected = concat!(env!("CARGO_MANIFEST_DIR"), "/../examples/c/reserve.expected");
    assert_eq!(reserve::story().unwrap(), std::fs::read_to_string(expected).unwrap());
}
