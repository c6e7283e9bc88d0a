//! Lists merged at once: what they come to, and the place from which on they don't merge.
use crate::files::made::of_text;
use crate::files::outcomes::{printed, push};
use cc2_de::Config;
use cc2_error::error::Error;
use cc2_leaf::{Merge, MergeAllFault, Value};
use std::alloc::Global;
use std::result::Result;
use std::test::Fail;

// No number, then 5, then 6.
fn numbers(alloc: Global) -> Result<Vec<Option<Value<i32>>>, Fail> {
    let mut list = Vec::new(alloc);
    list.push(None)?;
    for val in [5, 6] {
        list.push(Some(Value {
            val,
            definition: None,
        }))?;
    }
    Ok(list)
}

// The configurations of these texts, the nearest first.
fn configs(alloc: Global, texts: &[&str]) -> Result<Vec<Config>, Error> {
    let mut configs = Vec::new(alloc);
    for text in texts {
        push(&mut configs, of_text(alloc, text))?;
    }
    Ok(configs)
}

// What they merge to, as it is printed; else the place and the refusal.
fn merged(alloc: Global, texts: &[&str]) -> Result<String, Fail> {
    match Config::merge_all(alloc, configs(alloc, texts)?) {
        Ok(config) => printed(alloc, Ok(config)),
        Err(MergeAllFault::Mixed { place, error }) => Ok(format!(in alloc; "{place}: {error}")?),
        Err(MergeAllFault::Memory) => Ok(String::from_str(alloc, "out of memory")?),
    }
}

#[test]
fn the_first_that_is_there_stands(rt: HostRuntime) -> Result<(), Fail> {
    let alloc = rt.alloc();
    let one = Value::merge_list(alloc, numbers(alloc)?)?;
    assert!(rt; matches!(&one, Some(value) if value.val == 5));
    Ok(())
}

#[test]
fn configurations_merge_at_once(rt: HostRuntime) -> Result<(), Fail> {
    let alloc = rt.alloc();
    let texts = [
        "build.rustflags = ['a']\nregistries.r.index = 'near'",
        "build.jobs = 2",
        "build.rustflags = ['b', 'c']\nbuild.jobs = 3\nregistries.r = { index = 'far', token = 't' }",
    ];
    let shown = merged(alloc, &texts)?;
    assert_eq!(rt;
        shown.as_str(),
        "[build]\njobs = 2\nrustflags = [\"b\", \"c\", \"a\"]\n\n[registries.r]\nindex = \"near\"\ntoken = \"t\"\n"
    );
    assert_eq!(rt; merged(alloc, &[])?.as_str(), "");
    Ok(())
}

#[test]
fn the_place_is_the_least(rt: HostRuntime) -> Result<(), Fail> {
    let alloc = rt.alloc();
    let third = ["", "build.rustflags = 's'", "build.rustflags = ['t']"];
    assert_eq!(rt;
        merged(alloc, &third)?.as_str(),
        "2: expected string, but found array"
    );
    let second = [
        "build.rustflags = ['a']\nenv.X = 'x'",
        "build.rustflags = 'b'",
        "env.X = { value = 'y' }",
    ];
    assert_eq!(rt;
        merged(alloc, &second)?.as_str(),
        "1: expected array, but found string"
    );
    Ok(())
}
