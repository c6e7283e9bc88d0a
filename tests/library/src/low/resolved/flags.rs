//! Flags: that their calls succeed. What they give is said by their clauses, and of worked examples by the rows of
//! the definitions (`cc2_resolved/proofs/Rows.antt`).
use cc2_resolved::flags::Flags;
use cc2_resolved::string_list::StringList;
use std::alloc::Global;
use std::test::Fail;

#[test]
fn flags_in_one_text(rt: HostRuntime) -> std::result::Result<(), Fail> {
    let alloc = rt.alloc();
    let encoded = Flags::from_encoded(alloc, "\x1fa\x1f\x1fb")?.encode(alloc)?;
    let read = Flags::from_space_separated(alloc, encoded.as_str())?;
    let spaced = read.encode_space_separated(alloc)?;
    assert!(rt; spaced.as_str() == "a\x1f\x1fb", "{spaced}");
    Ok(())
}

#[test]
fn flags_are_made_and_compared(rt: HostRuntime) -> std::result::Result<(), Fail> {
    let alloc = rt.alloc();
    let mut flags = Flags::from(StringList::from_strs(alloc, &["a", "b"])?.list);
    flags.push(String::from_str(alloc, "c")?)?;
    let copy = flags.try_clone(alloc)?;
    assert!(rt; Flags::from_strings(alloc, copy.flags.as_slice())? == flags);
    assert!(rt; flags != Flags::from_strs(alloc, &["a", "b"])?);
    assert!(rt; flags != Flags::empty(alloc));
    Ok(())
}

// Flags made of these, in one text, by the separator or by spaces; of a refusal its text.
fn joined(alloc: Global, flags: &[&str], spaced: bool) -> std::result::Result<String, Fail> {
    let flags = Flags::from_strs(alloc, flags)?;
    let text = if spaced {
        flags.encode_space_separated(alloc)
    } else {
        flags.encode(alloc)
    };
    match text {
        Ok(text) => Ok(text),
        Err(error) => Ok(error.to_string(alloc)?),
    }
}

#[test]
fn flags_as_texts(rt: HostRuntime) -> std::result::Result<(), Fail> {
    let alloc = rt.alloc();
    for (text, flags) in [
        ("", [].as_slice()),
        ("a\x1f\x1fb", ["a", "", "b"].as_slice()),
    ] {
        assert!(rt;
            Flags::from_encoded(alloc, text)? == Flags::from_strs(alloc, flags)?,
            "{text}"
        );
    }
    let spaced = Flags::from_space_separated(alloc, "  -C  opt-level=3 ")?;
    assert!(rt; spaced == Flags::from_strs(alloc, &["-C", "opt-level=3"])?);
    for (flags, spaced, expected) in [
        (["", "a"].as_slice(), false, "a"),
        (
            ["b\x1fc"].as_slice(),
            false,
            r"flag in rustflags must not contain its separator ('\u{1f}')",
        ),
        (
            ["a", "b c"].as_slice(),
            true,
            "flag in rustflags must not contain its separator (' ')",
        ),
    ] {
        assert_eq!(rt; joined(alloc, flags, spaced)?.as_str(), expected);
    }
    Ok(())
}
