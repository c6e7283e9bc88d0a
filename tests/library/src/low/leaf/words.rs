//! Words of enums that are spelled out, and a value that no file has.
use cc2_error::error::{Error, ErrorKind};
use cc2_leaf::{
    Color, Decode, Frequency, RegistriesProtocol, Spelled, Value, VersionControlSoftware, When,
};
use std::alloc::Global;
use std::process::Abort;
use std::result::Result;
use std::test::Fail;

// The line that a spelling has to keep to, if the error says one.
fn rule(error: &Error) -> &'static str {
    match error.kind() {
        ErrorKind::BadSpelling { must } => must,
        _ => "another",
    }
}

// The line that refuses the text as a spelling; empty where it is one.
fn misspelled<E: Spelled>(text: &str) -> &'static str {
    match E::spelled(text) {
        Ok(_) => "",
        Err(error) => rule(&error),
    }
}

// Checks the line that refuses the text as a spelling.
fn expect_misspelled<E: Spelled>(rt: &impl Abort, text: &str, line: &str) {
    assert_eq!(rt; misspelled::<E>(text), line);
}

#[test]
fn other_words_are_refused(rt: HostRuntime) -> Result<(), Fail> {
    expect_misspelled::<Color>(&rt, "x", "must be auto, always, or never");
    expect_misspelled::<When>(&rt, "Auto", "must be auto, always, or never");
    expect_misspelled::<Frequency>(&rt, "", "must be always or never");
    expect_misspelled::<RegistriesProtocol>(&rt, "gits", "must be git or sparse");
    expect_misspelled::<VersionControlSoftware>(&rt, "svn", "must be git, hg, pijul, fossil, none");
    assert!(rt; Color::default() == Color::Auto);
    assert!(rt; When::default() == When::Auto);
    assert!(rt; Frequency::default() == Frequency::Always);
    Ok(())
}

// The protocol of a file's text has no definition.
fn is_sparse(alloc: Global, value: &toml::Value) -> bool {
    let read: cc2_error::error::Result<Value<RegistriesProtocol>> = Decode::decode(
        alloc, value, "k",
    );
    match read {
        Ok(protocol) => {
            protocol.val == RegistriesProtocol::Sparse && protocol.definition.is_none()
        }
        Err(_) => false,
    }
}

#[test]
fn decoded_values_have_no_definition(rt: HostRuntime) -> Result<(), Fail> {
    let alloc = rt.alloc();
    let table = toml::table_from_str(alloc, "k = \"sparse\"")?;
    match table.get("k") {
        None => assert!(rt; false),
        Some(value) => assert!(rt; is_sparse(alloc, value)),
    }
    Ok(())
}
