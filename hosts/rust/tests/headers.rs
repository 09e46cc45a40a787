//! The bindings are the headers': C asserts what `sys` says of each struct, and the numbers of faults.
use psci::sys::{LAYOUTS, PLACES};
use std::{fmt::Write, fs, process::Command};

fn program() -> String {
    let mut text = String::from("#include \"psci_guest.h\"\n#include <stddef.h>\n");
    let mut asserts = |claim: String| writeln!(text, "_Static_assert({claim}, \"\");").unwrap();
    for (name, size, fields) in LAYOUTS.iter().chain(&PLACES) {
        asserts(format!("sizeof(struct {name}) == {size}"));
        for (field, offset, size) in *fields {
            asserts(format!("offsetof(struct {name}, {field}) == {offset}"));
            asserts(format!("sizeof(((struct {name} *)0)->{field}) == {size}"));
        }
    }
    psci::NUMBERS.iter().for_each(|(name, number)| asserts(format!("{name} == {number}")));
    text
}

fn compiles(text: &str, name: &str) -> bool {
    let file = format!("{}/{name}.c", env!("CARGO_TARGET_TMPDIR"));
    fs::write(&file, text).unwrap();
    let mut cc = Command::new("cc");
    cc.args(["-std=gnu11", "-fsyntax-only", "-I", env!("PSCI_HEADERS"), &file]).output().unwrap().status.success()
}

#[test]
fn bindings_are_the_headers() {
    let text = program();
    assert!(compiles(&text, "bindings"));
    for (at, wrong) in ["wakes) == 4", "struct psci_guest_turn) == 224", "PSCI_BOARD_BAD_BOOT == 6"].iter().enumerate()
    {
        assert_eq!(text.matches(wrong).count(), 1, "{wrong}");
        assert!(!compiles(&text.replace(wrong, &format!("{wrong}1")), &format!("wrong-{at}")), "{wrong}");
    }
}

#[test]
fn the_version_is_that_of_the_archive() {
    let parts = env!("CARGO_PKG_VERSION").split('.').map(|it| it.parse::<u32>().unwrap());
    assert_eq!(parts.fold(0, |sum, it| sum << 8 | it), psci::version());
}
