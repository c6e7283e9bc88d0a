//! The pieces of a text that are its keys and values.
use crate::low::made::texts;
use cc2_reports::{Locator, Span};
use std::alloc::Global;
use std::process::Abort;
use std::result::Result;
use std::test::Fail;

// A piece as LINE:COLUMN-COLUMN, or `nowhere`.
fn shown(alloc: Global, span: Option<Span>) -> Result<String, Fail> {
    match span {
        Some(span) => {
            let line = span.start.line;
            let (from, to) = (span.start.column, span.end.column);
            Ok(format!(in alloc; "{line}:{from}-{to}")?)
        }
        None => Ok(String::from_str(alloc, "nowhere")?),
    }
}

// Checks the pieces of the keys of these paths and of their values.
fn expect_spans(
    rt: &impl Abort,
    alloc: Global,
    text: &str,
    rows: &[(&[&str], &str, &str)],
) -> Result<(), Fail> {
    let locator = Locator::read(alloc, text)?;
    for (path, key, value) in rows {
        let keys = texts(alloc, *path)?;
        let place = locator.place(alloc, keys.as_slice())?;
        let found = shown(alloc, place.map(|place| place.key))?;
        assert_eq!(rt; found.as_str(), *key);
        let found = shown(alloc, locator.value_span(alloc, keys.as_slice())?)?;
        assert_eq!(rt; found.as_str(), *value);
    }
    Ok(())
}

#[test]
fn values_end_where_they_do_in_their_line(rt: HostRuntime) -> Result<(), Fail> {
    let text = "a = 1 # x\n\
        'b' = \"x # y\" # z\n\
        c = [1, \"]\"] \n\
        d = {e = 'f', g = true}\n\
        h = [\n1]\n\
        i = \"\"\"j\nk\"\"\"\n\
        l = '''m'n''' # o\n\
        p = \"q\\\"r\"\n\
        s = 1979-05-27 07:32:00\n\
        t.u = -1.5 \t\n";
    let rows: [(&[&str], &str, &str); 13] = [
        (&["a"], "1:1-2", "1:5-6"),
        (&["b"], "2:2-3", "2:7-14"),
        (&["c"], "3:1-2", "3:5-13"),
        (&["d"], "4:1-2", "4:5-24"),
        (&["d", "e"], "4:6-7", "4:10-13"),
        (&["d", "g"], "4:15-16", "4:19-23"),
        (&["h"], "5:1-2", "5:5-6"),
        (&["i"], "7:1-2", "7:5-9"),
        (&["l"], "9:1-2", "9:5-14"),
        (&["p"], "10:1-2", "10:5-11"),
        (&["s"], "11:1-2", "11:5-24"),
        (&["t"], "12:1-2", "nowhere"),
        (&["t", "u"], "12:3-4", "12:7-11"),
    ];
    expect_spans(&rt, rt.alloc(), text, rows.as_slice())
}

#[test]
fn keys_with_escapes_are_found(rt: HostRuntime) -> Result<(), Fail> {
    let text = "\"a\\u0062\" = 1\n[\"\\t\\\\\".c]\nd = 2\n[e.\"f\\ng\"]\nh = 3\n";
    let rows: [(&[&str], &str, &str); 4] = [
        (&["ab"], "1:2-9", "1:13-14"),
        (&["\t\\", "c", "d"], "3:1-2", "3:5-6"),
        (&["e", "f\ng"], "nowhere", "nowhere"),
        (&["e", "f", "g"], "nowhere", "nowhere"),
    ];
    expect_spans(&rt, rt.alloc(), text, rows.as_slice())
}

#[test]
fn a_byte_order_mark_has_no_column(rt: HostRuntime) -> Result<(), Fail> {
    let text = "\u{feff}a = 1\nb = 2\n";
    let rows: [(&[&str], &str, &str); 2] = [(&["a"], "1:1-2", "1:5-6"), (&["b"], "2:1-2", "2:5-6")];
    expect_spans(&rt, rt.alloc(), text, rows.as_slice())?;
    let locator = Locator::read(rt.alloc(), text)?;
    let first = locator.span_at(3, 1);
    assert_eq!(&rt; shown(rt.alloc(), first)?.as_str(), "1:1-2");
    match first {
        Some(span) => assert_eq!(&rt; locator.line_at(span.start), Some("a = 1")),
        None => assert!(&rt; false),
    }
    Ok(())
}

#[test]
fn pieces_are_cut_at_the_end_of_their_line(rt: HostRuntime) -> Result<(), Fail> {
    let text = "a = 1\r\n\u{e9}b\n";
    let locator = Locator::read(rt.alloc(), text)?;
    let rows: [(usize, usize, &str); 6] = [
        (0, 1, "1:1-2"),
        (4, 100, "1:5-6"),
        (7, 3, "2:1-3"),
        (9, 0, "2:2-2"),
        (8, 1, "nowhere"),
        (99, 1, "nowhere"),
    ];
    for (offset, length, expected) in &rows {
        let found = shown(rt.alloc(), locator.span_at(*offset, *length))?;
        assert_eq!(&rt; found.as_str(), *expected);
    }
    Ok(())
}
