//! Lists of texts: that their calls succeed.
use cc2_resolved::string_list::StringList;
use std::test::Fail;

#[test]
fn lists(rt: HostRuntime) -> std::result::Result<(), Fail> {
    let alloc = rt.alloc();
    let read = StringList::from_text(alloc, " run  --release\t")?.try_clone(alloc)?;
    let owned = StringList::from(StringList::from_strs(alloc, &["run", "--release"])?.list);
    assert!(rt; StringList::from_strings(alloc, owned.list.as_slice())? == read);
    assert!(rt; StringList::from_strs(alloc, &["run --release"])? != read);
    assert!(rt; StringList::empty(alloc) != read);
    Ok(())
}
