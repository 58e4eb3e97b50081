//! The derivation notices what it should.
#[path = "../build/derive.rs"]
mod derive;
use derive::{derive, fingerprint, omit, publish, replace};

const PRINT: &str = "fn a() {}\nfn b() { a(); a() }\n";

#[test]
fn edits_apply_in_order() {
    assert_eq!(derive("x.rs", PRINT.into(), &[]).unwrap(), PRINT);
    let edits = [replace(1, "", " a();", " c();"), publish(&["fn b"]), omit("", "fn a()", "pub fn")];
    assert_eq!(derive("x.rs", PRINT.into(), &edits).unwrap(), "pub fn b() { c(); a() }\n");
    let edits = [omit("", "fn b", "")];
    assert_eq!(derive("x.rs", PRINT.into(), &edits).unwrap(), "fn a() {}\n");
}

#[test]
fn another_count_is_a_fault() {
    for edits in [
        [replace(1, "one", "a()", "c()")],
        [replace(0, "none", "a()", "")],
        [omit("twice there", "fn", "{")],
        [omit("no end", "fn b", "fn")],
        [publish(&["fn c"])],
    ] {
        assert!(derive("x.rs", PRINT.into(), &edits).is_err());
    }
    let fault = derive("x.rs", PRINT.into(), &[replace(1, "one", "a()", "c()")]).unwrap_err();
    assert_eq!(fault, "x.rs: one: stands 3 times in the print, not 1: \"a()\"");
}

#[test]
fn another_print_has_another_fingerprint() {
    assert_eq!(fingerprint(""), 0xcbf2_9ce4_8422_2325);
    assert_eq!(fingerprint("a"), 0xaf63_dc4c_8601_ec8c);
    assert_ne!(fingerprint(PRINT), fingerprint(&PRINT.replace("a();", "a() ;")));
}
