//! What is serialized, as TOML prints it.
use crate::low::made::printed;
use cc2_resolved::flags::Flags;
use cc2_resolved::string_list::StringList;
use cc2_resolved::target_triple::{TargetTriple, TargetTripleRef};
use serde::Serialize;
use std::alloc::Global;
use std::process::Abort;
use std::test::Fail;

// Checks what is printed of a value at the key `k`.
fn expect_printed<T: Serialize + Drop>(
    rt: &impl Abort,
    alloc: Global,
    value: T,
    expected: &str,
) -> std::result::Result<(), Fail> {
    let text = printed(alloc, value)?;
    assert!(rt; text.as_str() == expected, "{text}");
    Ok(())
}

#[test]
fn printed_as_toml(rt: HostRuntime) -> std::result::Result<(), Fail> {
    let alloc = rt.alloc();
    let flags = Flags::from_strs(alloc, &["-C", "", "lto"])?;
    expect_printed(&rt, alloc, flags, "k = [\"-C\", \"\", \"lto\"]\n")?;
    let list = StringList::from_text(alloc, "run  -q")?;
    expect_printed(&rt, alloc, list, "k = [\"run\", \"-q\"]\n")?;
    expect_printed(&rt, alloc, Flags::empty(alloc), "k = []\n")?;
    let target: TargetTriple = TargetTripleRef::new("s/a.json")?.into_owned(alloc)?;
    expect_printed(&rt, alloc, target, "k = \"s/a.json\"\n")
}
