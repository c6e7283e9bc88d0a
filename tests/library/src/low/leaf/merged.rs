//! Values without an origin, merged and joined, and lists and maps that are copied and given a path.
use cc2_leaf::{
    Color, Frequency, Merge, RegistriesProtocol, SetPath, StringOrArray, TryClone, Value,
    VersionControlSoftware, When,
};
use std::alloc::Global;
use std::collections::BTreeMap;
use std::fmt::Debug;
use std::result::Result;
use std::test::Fail;

// What two values merge to, and what two are joined to after an absent one, as both are shown.
fn merged<T: Merge + Debug>(
    alloc: Global,
    high: T,
    low: T,
    near: T,
    far: T,
) -> Result<String, Fail> {
    let two = high.merge(alloc, low)?;
    let mut list = Vec::new(alloc);
    list.push(None)?;
    list.push(Some(near))?;
    list.push(Some(far))?;
    let joined = T::merge_list(alloc, list)?;
    Ok(format!(in alloc; "{two:?} {joined:?}")?)
}

fn text(alloc: Global, text: &str) -> Result<String, Fail> {
    Ok(String::from_str(alloc, text)?)
}

#[test]
fn of_bare_values_the_stronger_stands(rt: HostRuntime) -> Result<(), Fail> {
    let alloc = rt.alloc();
    let shown = merged(alloc, true, false, true, false)?;
    assert_eq!(rt; shown.as_str(), "true Some(true)");
    let shown = merged(alloc, -1i32, 2, -1, 2)?;
    assert_eq!(rt; shown.as_str(), "-1 Some(-1)");
    let shown = merged(alloc, 1u32, 2, 1, 2)?;
    assert_eq!(rt; shown.as_str(), "1 Some(1)");
    let (high, low) = (text(alloc, "a")?, text(alloc, "b")?);
    let (near, far) = (text(alloc, "a")?, text(alloc, "b")?);
    let shown = merged(alloc, high, low, near, far)?;
    assert_eq!(rt; shown.as_str(), "\"a\" Some(\"a\")");
    Ok(())
}

#[test]
fn of_spelled_values_the_stronger_stands(rt: HostRuntime) -> Result<(), Fail> {
    let alloc = rt.alloc();
    let shown = merged(alloc, Color::Never, Color::Auto, Color::Never, Color::Auto)?;
    assert_eq!(rt; shown.as_str(), "Never Some(Never)");
    let shown = merged(alloc, When::Always, When::Auto, When::Always, When::Auto)?;
    assert_eq!(rt; shown.as_str(), "Always Some(Always)");
    let (high, low) = (Frequency::Never, Frequency::Always);
    let shown = merged(alloc, high, low, high, low)?;
    assert_eq!(rt; shown.as_str(), "Never Some(Never)");
    let (high, low) = (VersionControlSoftware::Pijul, VersionControlSoftware::Git);
    let shown = merged(alloc, high, low, high, low)?;
    assert_eq!(rt; shown.as_str(), "Pijul Some(Pijul)");
    let (high, low) = (RegistriesProtocol::Sparse, RegistriesProtocol::Git);
    let (near, far) = (RegistriesProtocol::Sparse, RegistriesProtocol::Git);
    let shown = merged(alloc, high, low, near, far)?;
    assert_eq!(rt; shown.as_str(), "Sparse Some(Sparse)");
    Ok(())
}

fn number(val: i32) -> Value<i32> {
    Value {
        val,
        definition: None,
    }
}

// A copy of a value that has got a path, as it is shown, and the value itself after it.
fn moved<T: SetPath + Debug>(alloc: Global, value: &T) -> Result<String, Fail> {
    let mut copy = TryClone::try_clone(value, alloc)?;
    copy.set_path(alloc, "/p")?;
    Ok(format!(in alloc; "{copy:?} {value:?}")?)
}

#[test]
fn lists_and_maps_are_copied_and_moved(rt: HostRuntime) -> Result<(), Fail> {
    let alloc = rt.alloc();
    let mut list = Vec::new(alloc);
    list.push(number(1))?;
    list.push(number(2))?;
    let shown = moved(alloc, &list)?;
    assert_eq!(rt;
        shown.as_str(),
        "[Value { val: 1, definition: Some(Path(\"/p\")) }, Value { val: 2, definition: Some(Path(\"/p\")) }] [Value { val: 1, definition: None }, Value { val: 2, definition: None }]"
    );
    let mut words = Vec::new(alloc);
    words.push(Value {
        val: text(alloc, "a")?,
        definition: None,
    })?;
    let shown = moved(alloc, &StringOrArray::Array(words))?;
    assert_eq!(rt;
        shown.as_str(),
        "Array([Value { val: \"a\", definition: Some(Path(\"/p\")) }]) Array([Value { val: \"a\", definition: None }])"
    );
    let mut map = BTreeMap::new(alloc);
    map.insert(text(alloc, "k")?, Some(number(3)))?;
    map.insert(text(alloc, "l")?, None)?;
    let shown = moved(alloc, &map)?;
    assert_eq!(rt;
        shown.as_str(),
        "{\"k\": Some(Value { val: 3, definition: Some(Path(\"/p\")) }), \"l\": None} {\"k\": Some(Value { val: 3, definition: None }), \"l\": None}"
    );
    Ok(())
}
