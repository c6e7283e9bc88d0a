//! Rows of rustc's lines, of keys of `[target]` and of questions.
use cc2_cfg::Predicate;
use cc2_error::error::{ErrorKind, Result};
use cc2_rustc::{
    Cfg, CfgFault, CfgSet, asking_keys, asks, cfg_answer, read_key, true_values, value_by,
};
use std::alloc::Global;
use std::collections::BTreeMap;
use std::process::Abort;
use std::test::Fail;

// Whether the predicate is true by these lines, asked of a copy.
fn held(alloc: Global, lines: &str, predicate: &Predicate<'_>) -> Result<bool> {
    let set = CfgSet::read(alloc, lines)?.try_clone(alloc)?;
    Ok(set.holds(predicate))
}

fn flag(word: &str) -> Predicate<'_> {
    Predicate::Flag(word)
}

fn pair<'a>(key: &'a str, val: &'a str) -> Predicate<'a> {
    Predicate::KeyValue { key, val }
}

#[test]
fn lines_of_rustc(rt: HostRuntime) -> std::result::Result<(), Fail> {
    for (lines, predicate, expected) in [
        ("", flag("unix"), false),
        (" unix \r\n", flag("unix"), true),
        ("\u{a0}unix\t", flag("unix"), true),
        ("\n \t\r\nunix\n\n", flag("unix"), true),
        ("windows\nunix", flag("unix"), true),
        ("windows", flag("unix"), false),
        ("unix x", flag("unix"), false),
        ("a=\"b\"", pair("a", "b"), true),
        ("a=\"b\"", pair("a", "c"), false),
        ("a=\"b\"", pair("b", "a"), false),
        ("a=\"b\"", flag("a"), false),
        ("a", pair("a", ""), false),
        ("a=\"b=c\"", pair("a", "b=c"), true),
        ("a=\"\"b\"\"", pair("a", "\"b\""), true),
        ("a=\" b \"", pair("a", " b "), true),
        ("a =\"b\"", pair("a ", "b"), true),
        ("=\"b\"", pair("", "b"), true),
        ("a=\"\"", pair("a", ""), true),
        ("a=\"", pair("a", ""), false),
        ("a=\"b", pair("a", "b"), false),
        ("a=b\"", pair("a", "b"), false),
        ("a= \"b\"", pair("a", "b"), false),
        ("a=b", pair("a", "b"), false),
        ("a=", flag("a"), false),
        ("feature=\"x\"", pair("feature", "x"), false),
        ("feature", flag("feature"), true),
        ("", flag("true"), true),
        ("false", flag("false"), false),
        ("test", flag("test"), false),
        ("debug_assertions", flag("debug_assertions"), false),
        ("proc_macro", flag("proc_macro"), false),
        ("test=\"a\"", pair("test", "a"), true),
    ] {
        let found = held(rt.alloc(), lines, &predicate)?;
        assert_eq!(rt; found, expected, "{lines}");
    }
    Ok(())
}

// What a key answers: it doesn't ask, it asks and has a value, or it is refused.
#[derive(Clone, Copy, Debug, PartialEq, Eq)]
enum Answer {
    None,
    Value(bool),
    Refused,
}

fn judged(alloc: Global, key: &str, lines: &str) -> Result<Answer> {
    let expression = match read_key(alloc, key) {
        Ok(Some(expression)) => expression,
        Ok(None) => return Ok(Answer::None),
        Err(error) if matches!(error.kind(), ErrorKind::CfgParse(_)) => return Ok(Answer::Refused),
        Err(error) => return Err(error),
    };
    let set = CfgSet::read(alloc, lines)?;
    Ok(Answer::Value(value_by(alloc, &expression, &set)?))
}

fn table_of(alloc: Global, keys: &[(&str, u32)]) -> Result<BTreeMap<String, u32>> {
    let mut table = BTreeMap::new(alloc);
    for (key, value) in keys {
        table.insert(String::from_str(alloc, key)?, *value)?;
    }
    Ok(table)
}

// Whether some key of the table asks, and the digits that are at its true keys.
fn found_by(alloc: Global, keys: &[(&str, u32)], lines: &str) -> Result<(bool, u32)> {
    let table = table_of(alloc, keys)?;
    let asking = asking_keys(alloc, &table)?;
    let set = CfgSet::read(alloc, lines)?;
    let mut digits = 0u32;
    for value in true_values(alloc, asking.as_slice(), &set)? {
        digits = digits.wrapping_mul(10).wrapping_add(*value);
    }
    Ok((asks(asking.as_slice()), digits))
}

#[test]
fn keys_of_target(rt: HostRuntime) -> std::result::Result<(), Fail> {
    let family = "cfg(any(unix, target_family = \"windows\", target_family = \"wasm\"))";
    let android = "cfg(all(unix, not(any(target_os=\"macos\", target_os=\"android\"))))";
    for (key, lines, expected) in [
        ("cfg()", "unix", Answer::None),
        ("cfg( )", "", Answer::None),
        ("", "", Answer::None),
        ("unix", "unix", Answer::None),
        ("a b", "a", Answer::None),
        (" cfg(unix)", "unix", Answer::None),
        ("cfg(all())", "", Answer::Value(true)),
        ("cfg(any())", "", Answer::Value(false)),
        ("cfg(all(any(b),a))", "a\nb\n", Answer::Value(true)),
        ("cfg(all(any(b),a))", "b\n", Answer::Value(false)),
        (family, "unix\n", Answer::Value(true)),
        (family, "target_family=\"wasm\"\r\n", Answer::Value(true)),
        (family, "target_os=\"none\"", Answer::Value(false)),
        (android, "unix\ntarget_os=\"linux\"\n", Answer::Value(true)),
        (
            android,
            "unix\ntarget_os=\"android\"\n",
            Answer::Value(false),
        ),
        ("cfg(a b)", "a\nb\n", Answer::Refused),
        ("cfg(a", "a\n", Answer::Refused),
        ("cfg(a))", "a\n", Answer::Refused),
    ] {
        let found = judged(rt.alloc(), key, lines)?;
        assert_eq!(rt; found, expected, "{key}");
    }
    let triples = [("cfg()", 1), ("x86", 2)];
    let mixed = [
        ("cfg(unix)", 3),
        ("x86", 4),
        ("cfg(all())", 1),
        ("cfg(any())", 2),
        ("cfg()", 5),
    ];
    let bad = [("cfg(all())", 1), ("cfg(a b)", 2)];
    for (keys, lines, expected) in [
        (triples.as_slice(), "x86", Some((false, 0))),
        (mixed.as_slice(), "unix", Some((true, 13))),
        (mixed.as_slice(), "", Some((true, 1))),
        (bad.as_slice(), "", None),
    ] {
        let found = found_by(rt.alloc(), keys, lines).ok();
        assert_eq!(rt; found, expected, "{lines}");
    }
    Ok(())
}

// The system of a target; it has one.
struct TargetOs;

impl Cfg for TargetOs {
    ghost use Rattle.std.specs.Prelude.{None, codes};

    const KEY: &'static str = "target_os";

    const MAX: usize = 1;

    type Output = String;

    ghost named = { codes "target_os" };

    ghost MAX = { 1 };

    ghost Shown = { Unit {0} };

    ghost shown = { λ _. tt };

    ghost told = { λ _. ⊥ };

    fn name() -> &'static str {
        Self::KEY
    }

    fn default_output() -> Option<String> {
        None
    }

    fn from_values(alloc: Global, values: &[String]) -> std::result::Result<String, CfgFault> {
        match values {
            [value] => Ok(String::from_str(alloc, value.as_str())?),
            _ => Err(CfgFault::Unreadable),
        }
    }
}

// How many families a target has.
struct Families;

impl Cfg for Families {
    ghost use Rattle.std.specs.Prelude.{None, codes};

    const KEY: &'static str = "target_family";

    const MAX: usize = 2;

    type Output = usize;

    ghost named = { codes "target_family" };

    ghost MAX = { 2 };

    ghost Shown = { Unit {0} };

    ghost shown = { λ _. tt };

    ghost told = { λ _. ⊥ };

    fn name() -> &'static str {
        Self::KEY
    }

    fn default_output() -> Option<usize> {
        Some(0)
    }

    fn from_values(_alloc: Global, values: &[String]) -> std::result::Result<usize, CfgFault> {
        match values {
            [value] if value.as_str() == "none" => Err(CfgFault::Unreadable),
            _ => Ok(values.len()),
        }
    }
}

// A name that rustc never prints.
struct Unprinted;

impl Cfg for Unprinted {
    ghost use Rattle.std.specs.Prelude.{None, codes};

    const KEY: &'static str = "x";

    const MAX: usize = 1;

    type Output = ();

    ghost named = { codes "x" };

    ghost MAX = { 1 };

    ghost Shown = { Unit {0} };

    ghost shown = { λ _. tt };

    ghost told = { λ _. ⊥ };

    fn name() -> &'static str {
        Self::KEY
    }

    fn default_output() -> Option<()> {
        None
    }

    fn from_values(_alloc: Global, _values: &[String]) -> std::result::Result<(), CfgFault> {
        Ok(())
    }
}

// Checks what the refusal of this question prints.
fn expect_refusal<C: Cfg>(
    rt: &impl Abort,
    alloc: Global,
    lines: &str,
    text: &str,
) -> std::result::Result<(), Fail> {
    let set = CfgSet::read(alloc, lines)?;
    match cfg_answer::<C>(alloc, &set) {
        Ok(_) => panic!(rt; "answered"),
        Err(error) => {
            let shown = error.to_string(alloc)?;
            assert!(rt; shown.as_str() == text, "{shown}");
            Ok(())
        }
    }
}

fn system(alloc: Global, lines: &str) -> Result<String> {
    let set = CfgSet::read(alloc, lines)?;
    cfg_answer::<TargetOs>(alloc, &set)
}

fn family_count(alloc: Global, lines: &str) -> Result<usize> {
    let set = CfgSet::read(alloc, lines)?;
    cfg_answer::<Families>(alloc, &set)
}

// The values of the families, each after a space.
fn family_values(alloc: Global, lines: &str) -> Result<String> {
    let set = CfgSet::read(alloc, lines)?;
    let mut line = String::new(alloc);
    for value in set.values(alloc, Families::KEY)? {
        line.push(' ')?;
        line.push_str(value.as_str())?;
    }
    Ok(line)
}

#[test]
fn questions_for_names(rt: HostRuntime) -> std::result::Result<(), Fail> {
    let alloc = rt.alloc();
    let linux = "target_os=\"linux\"";
    let twice = "target_os=\"linux\"\nunix\ntarget_os=\"linux\"";
    assert_eq!(rt; system(alloc, linux)?.as_str(), "linux");
    assert_eq!(rt; system(alloc, twice)?.as_str(), "linux");
    let one = "target_family=\"wasm\"";
    let several = "target_family=\"wasm\"\ntarget_family=\"unix\"\ntarget_family=\"wasm\"";
    for (lines, count, values) in [
        (twice, 0, ""),
        (one, 1, " wasm"),
        (several, 2, " unix wasm"),
    ] {
        assert_eq!(rt; family_count(alloc, lines)?, count, "{lines}");
        assert_eq!(rt; family_values(alloc, lines)?.as_str(), values);
    }
    let absent = "x cfg should be always available in cfg list from rustc --print cfg";
    let no_system = "target_os cfg should be always available in cfg list from rustc --print cfg";
    let systems = "target_os=\"b\"\ntarget_os=\"a\"";
    let bad = "target_family=\"none\"";
    let unreadable = "failed to parse value of target_family cfg";
    expect_refusal::<Unprinted>(&rt, alloc, "unix\nx\ny=\"x\"", absent)?;
    expect_refusal::<TargetOs>(&rt, alloc, "target_os", no_system)?;
    expect_refusal::<TargetOs>(&rt, alloc, systems, "too many target_os cfg")?;
    expect_refusal::<Families>(&rt, alloc, bad, unreadable)
}
