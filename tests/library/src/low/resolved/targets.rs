//! Targets as keys of a map, and copies of them.
use cc2_error::error::Result;
use cc2_resolved::target_triple::{TargetTriple, TargetTripleRef};
use std::alloc::Global;
use std::collections::HashMap;
use std::test::Fail;

// Two targets of any two lifetimes.
fn same(a: &TargetTripleRef<'_>, b: &TargetTripleRef<'_>) -> bool {
    a.by_ref() == b.by_ref()
}

fn owned(alloc: Global, text: &str) -> Result<TargetTriple> {
    TargetTripleRef::new(text)?.into_owned(alloc)
}

#[test]
fn map_by_targets(rt: HostRuntime) -> std::result::Result<(), Fail> {
    let alloc = rt.alloc();
    let mut kept: HashMap<TargetTriple, u8> = HashMap::new(alloc);
    kept.insert(owned(alloc, "b/x.json")?, 1)?;
    kept.insert(owned(alloc, "a/x.json")?, 2)?;
    kept.insert(
        TargetTripleRef::from_string(String::from_str(alloc, "b/x.json")?)?,
        3,
    )?;
    assert_eq!(rt; kept.len(), 2);
    let key = owned(alloc, "b/x.json")?;
    assert_eq!(rt; kept.get(&key.by_ref()).copied(), Some(3));
    let other = owned(alloc, "x.json")?;
    assert_eq!(rt; kept.get(&other.by_ref()).copied(), None);
    Ok(())
}

#[test]
fn copies(rt: HostRuntime) -> std::result::Result<(), Fail> {
    let alloc = rt.alloc();
    let text = String::from_str(alloc, "s/a.JSON")?;
    let borrowed = TargetTripleRef::new(text.as_str())?;
    let copy = borrowed.try_clone(alloc)?;
    assert_eq!(rt; copy.triple(), "a");
    let own = owned(alloc, "s/a.JSON")?;
    let own_copy = own.try_clone(alloc)?;
    assert!(rt; same(&copy, &own_copy));
    assert!(rt; borrowed == own.by_ref());
    let below = TargetTripleRef::below_root(alloc, "/p", "s/a.JSON")?;
    assert_eq!(rt; below.spec_path(), Some("/p/s/a.JSON"));
    Ok(())
}
