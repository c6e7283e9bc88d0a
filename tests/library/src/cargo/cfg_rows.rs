//! Keys that Cargo 1.95 took for true and for false on Linux, where `unix` and
//! `target_os = "linux"` are set and `windows` isn't. Only the nesting is deeper than Cargo's own.

use cc2_cargo::key_holds;
use cc2_cfg::Predicate;
use std::alloc::Global;
use std::process::Abort;
use std::test::Fail;

// Predicates as `rustc --print cfg` gives them.
fn is_set(predicate: &Predicate<'_>) -> bool {
    match predicate {
        Predicate::Flag(flag) => *flag == "unix",
        Predicate::KeyValue { key, val } => *key == "target_os" && *val == "linux",
    }
}

fn expect_value(rt: &impl Abort, alloc: Global, key: &str, expected: bool) -> Result<(), Fail> {
    let found = key_holds(alloc, key, |predicate| is_set(predicate))?;
    assert_eq!(rt; found, expected, "{key}");
    Ok(())
}

// Each line is a key.
fn expect_values(rt: &impl Abort, alloc: Global, keys: &str, expected: bool) -> Result<(), Fail> {
    'keys: for key in keys.lines() {
        expect_value(rt, alloc, key, expected)?;
    }
    Ok(())
}

// The true form of each rule.
const TRUE: &str = r#"cfg(unix)
cfg( unix )
cfg(   unix   )
cfg(target_os="linux")
cfg(target_os = "linux")
cfg(target_os  =  "linux"  )
cfg(not(target_os = ""))
cfg(not(x="é ,()=#"))
cfg(all())
cfg(all(unix))
cfg(all(unix,))
cfg(all(unix,target_os="linux"))
cfg( all ( unix , unix , ) )
cfg(all(unix,all()))
cfg(any(unix))
cfg(any(unix,))
cfg(any(windows,unix))
cfg(any(all(),any(),))
cfg(any(unix) )
cfg(not(any()))
cfg(not(windows))
cfg(not ( windows ) )
cfg(not(not(unix)))
cfg(not(all(unix,any())))
cfg(not(x))
cfg(not(_))
cfg(not(_1))
cfg(not(a1))
cfg(not(allx))
cfg(not(all_))
cfg(not(all1))
cfg(r#unix)
cfg(r#target_os = "linux")
cfg(not(r#windows))
cfg(not(r))
cfg(not(r#_))
cfg(not(r#all))
cfg(not(r#any))
cfg(not(r#not))
cfg(not(r#all = "x"))
cfg(true)
cfg(r#true)
cfg(not(false))
cfg(not(r#false))
cfg(all(true,true))
cfg(any(false,true,))
cfg(not(true = "x"))
cfg(not(false = "x"))
cfg(not(r#true = "x"))
cfg(not(True))"#;

// Keys with a tree that is false.
const FALSE: &str = r#"cfg(windows)
cfg(r#windows)
cfg(target_os = "macos")
cfg(any())
cfg(any(windows))
cfg(all(unix,windows))
cfg(all(unix,any()))
cfg(all(all(),any(),))
cfg(not(unix))
cfg(not(all()))
cfg(r#all)
cfg(r#any)
cfg(r#not)
cfg(false)
cfg(r#false)
cfg(not(true))
cfg(not(r#true))
cfg(true = "x")
cfg(True)"#;

// Keys that aren't `cfg(..)`.
const OTHER_KEYS: &str = r#"
unix
cfg
cfg(
cfg)
cfg(unix
cfg(any(unix)
cfg(unix) 
 cfg(unix)
cfg (unix)
CFG(unix)
cfg[unix]"#;

// Texts without tokens; each has what would be a tree beside them.
const NO_TOKENS: &str = r#"cfg(any(unix,1))
cfg(any(unix,1a))
cfg(any(unix,a-b))
cfg(any(unix,a.b))
cfg(any(unix,é))
cfg(any(unix,aé))
cfg(any(unix,'y'))
cfg(any(unix,x#))
cfg(any(unix,"))
cfg(any(unix) ")
cfg(any(unix,x = "y))
cfg(any(unix,x = "y"z"))
cfg(any(unix,x = "\""))
cfg(any(unix,r#))
cfg(any(unix,r#1))
cfg(any(unix,r# x))
cfg(any(unix,r # x))
cfg(any(unix,r#"x"))
cfg(any(unix,r#r#x))
cfg(any(unix,R#x))
cfg(any(unix,rr#x))
cfg(unix;)
cfg(unix#)"#;

// Lists of tokens without a tree.
const NO_TREES: &str = r#"cfg()
cfg( )
cfg(,)
cfg(,unix)
cfg(unix,)
cfg(unix,unix)
cfg(unix unix)
cfg(unix))
cfg((unix))
cfg(unix)(unix)
cfg("unix")
cfg(= "linux")
cfg(target_os =)
cfg(target_os "linux")
cfg(target_os = linux)
cfg(target_os == "linux")
cfg(any(unix,x=))
cfg(any(unix,x=y))
cfg(any(unix,x=r"y"))
cfg(any(unix,x="y" "z"))
cfg(any(unix,x="y"="z"))
cfg(any(unix,""=x))
cfg(all(,))
cfg(any(,))
cfg(all(,unix))
cfg(any(,unix))
cfg(all(unix,,))
cfg(all(unix,,unix))
cfg(all(unix unix))
cfg(any(unix not(x)))
cfg(any(any()any()unix))
cfg(all(unix)(unix))
cfg(any(unix),)
cfg(any(unix) unix)
cfg(any(unix)))
cfg(any(unix,all(unix))
cfg(not())
cfg(not(windows,))
cfg(not(windows, windows))
cfg(not windows)
cfg(not(not())
cfg(all)
cfg(not(all))
cfg(not(any))
cfg(not(not))
cfg(not(all = "x"))
cfg(not(any = "x"))
cfg(not(not = "x"))
cfg(r#all())
cfg(not(r#all(windows)))
cfg(r#not(windows))
cfg(true())
cfg(any(unix,r#true=))
cfg(cfg(unix))
cfg(any(unix, accessible(std)))
cfg(any(unix, version("1.0")))"#;

#[test]
fn true_keys(rt: HostRuntime) -> Result<(), Fail> {
    expect_values(&rt, rt.alloc(), TRUE, true)
}

#[test]
fn false_keys(rt: HostRuntime) -> Result<(), Fail> {
    let alloc = rt.alloc();
    expect_values(&rt, alloc, FALSE, false)?;
    expect_values(&rt, alloc, OTHER_KEYS, false)?;
    expect_values(&rt, alloc, NO_TOKENS, false)?;
    expect_values(&rt, alloc, NO_TREES, false)
}

// White space other than U+0020 is no white space to Cargo.
#[test]
fn other_white_space(rt: HostRuntime) -> Result<(), Fail> {
    'keys: for key in [
        "cfg(\tunix)",
        "cfg(unix\n)",
        "cfg(unix\r)",
        "cfg(unix\u{b})",
        "cfg(unix\u{c})",
        "cfg(unix\u{a0})",
        "cfg(unix\u{3000})",
    ] {
        expect_value(&rt, rt.alloc(), key, false)?;
    }
    Ok(())
}

// `cfg(`, this many times `not(`, `unix`, and the parentheses that close them.
fn nested(alloc: Global, depth: usize) -> Result<String, Fail> {
    let mut key = String::from_str(alloc, "cfg(")?;
    for _ in 0..depth {
        key.push_str("not(")?;
    }
    key.push_str("unix")?;
    for _ in 0..depth {
        key.push_str(")")?;
    }
    key.push_str(")")?;
    Ok(key)
}

#[test]
fn deep_nesting(rt: HostRuntime) -> Result<(), Fail> {
    let even = nested(rt.alloc(), 100_000)?;
    expect_value(&rt, rt.alloc(), even.as_str(), true)?;
    let odd = nested(rt.alloc(), 100_001)?;
    expect_value(&rt, rt.alloc(), odd.as_str(), false)
}
