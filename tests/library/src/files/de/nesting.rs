//! The deepest table that the TOML reader lets through, copied, given a path, merged, shown and printed.
use crate::files::made::of_text;
use crate::files::outcomes::{copied, merged, moved, printed, shown};
use cc2_de::Config;
use cc2_error::error::{Error, NoMemory};
use std::alloc::Global;
use std::result::Result;
use std::test::Fail;

// Puts a text so many times.
fn repeat(text: &mut String, part: &str, times: u32) -> Result<(), NoMemory> {
    for _ in 0..times {
        text.push_str(part)?;
    }
    Ok(())
}

// A header of 78 parts below `target`, a dotted key of 78, and 78 inline tables of 78 parts each.
fn deepest(alloc: Global) -> Result<String, NoMemory> {
    let mut key = String::new(alloc);
    repeat(&mut key, ".i", 77)?;
    let table = format!(in alloc; "{{ i{} = ", key.as_str())?;
    let mut text = String::new(alloc);
    text.push_str("[target")?;
    repeat(&mut text, ".i", 78)?;
    text.push_str("]\ni")?;
    text.push_str(key.as_str())?;
    text.push_str(" = ")?;
    repeat(&mut text, table.as_str(), 78)?;
    text.push_str("{ linker = 'the-linker' }")?;
    repeat(&mut text, " }", 78)?;
    Ok(text)
}

// The configuration of that text.
fn read(alloc: Global) -> Result<Config, Error> {
    let text = deepest(alloc)?;
    of_text(alloc, text.as_str())
}

// How many targets two copies of it have that are merged.
fn merged_targets(alloc: Global) -> Result<usize, Error> {
    let far = copied(alloc, read(alloc));
    let config = merged(alloc, copied(alloc, read(alloc)), far)?;
    Ok(config.target.len())
}

#[test]
fn the_deepest_table_is_copied_merged_shown_and_printed(rt: HostRuntime) -> Result<(), Fail> {
    let alloc = rt.alloc();
    assert_eq!(rt; merged_targets(alloc)?, 1);
    let shown = shown(alloc, moved(alloc, read(alloc), "/far"))?;
    assert!(rt; shown.contains("the-linker"));
    let printed = printed(alloc, read(alloc))?;
    assert!(rt; printed.contains("the-linker"));
    Ok(())
}
