//! Documents that are read, and such that aren't.
use super::*;
use crate::de;
use std::collections::BTreeMap;
use std::fmt;

// Any value, which is skipped.
#[derive(Debug, PartialEq)]
struct Any;

impl FromJson for Any {
    fn from_json(reader: &mut Reader<'_>) -> Result<Self> {
        reader.skip().map(|()| Any)
    }
}

#[test]
fn values_of_all_kinds() {
    let text = " {\"\":[1,-20 ,0], \"a\" : [ ],\"b\":[ 3 ] }\n";
    let lists = [("", vec![1, -20, 0]), ("a", vec![]), ("b", vec![3_i32])];
    assert_eq!(read(text), Ok(BTreeMap::from(lists.map(|(key, list)| (key.to_owned(), list)))));
    assert_eq!(read("{\"a\":[1,[],{},true,false,null,\"x\\n\"],\"b\":{\"c\":{}}}"), Ok(Any));
    assert_eq!(read(" {} "), Ok(BTreeMap::<String, bool>::new()));
}

#[test]
fn all_escapes() {
    let text = r#""\"\\\/\b\f\n\r\t\u0041\u00e9\uD83D\uDE00 é😀""#;
    assert_eq!(read(text), Ok("\"\\/\u{8}\u{c}\n\r\tAé😀 é😀".to_owned()));
    assert_eq!(read(r#"{"\u0041":true,"é\n":false}"#), Ok(BTreeMap::from([("A".into(), true), ("é\n".into(), false)])));
}

#[test]
fn no_json() {
    for text in [
        "",
        "{",
        "[1",
        "[1,]",
        "[,1]",
        "[1 1]",
        "[1}",
        "{\"a\"}",
        "{\"a\":}",
        "{\"a\":1,}",
        "{,\"a\":1}",
        "{\"a\":1]",
        "{\"a\":1 \"b\":1}",
        "{\"a\":1,\"a\":2}",
        "{\"b\":1,\"a\":2}",
        "{\"a\":1,\"\\u0061\":2}",
        "{1:1}",
        "01",
        "-",
        "-0",
        "1.5",
        "1e3",
        "+1",
        "99999999999999999999",
        "tru",
        "\"",
        "\"\\q\"",
        "\"\\u12\"",
        "\"\\u+123\"",
        "\"\\uD83D\"",
        "\"\\uD83Dx\"",
        "\"\\uD83D\\u0041\"",
        "\"\\uDE00\"",
        "\"\u{1}\"",
        "\"\\n\u{1}\"",
        "1 2",
        "\"\\u12é4\"",
        "\"\\",
        "nul",
        "--1",
        "é",
    ] {
        assert_eq!(read::<Any>(text), Err(Error::unread()), "{text}");
        assert_eq!(read::<String>(text), Err(Error::unread()), "{text}");
        assert_eq!(read::<BTreeMap<String, i32>>(text), Err(Error::unread()), "{text}");
    }
}

#[test]
fn depth_has_a_limit() {
    let nested = |depth: usize| format!("{}{}", "[".repeat(depth), "]".repeat(depth));
    assert_eq!((read(&nested(DEPTH)), read::<Any>(&nested(DEPTH + 1))), (Ok(Any), Err(Error::unread())));
    assert_eq!(read::<Any>(&"[".repeat(1 << 20)), Err(Error::unread()));
    assert_eq!(read::<Any>(&"{\"a\":".repeat(1 << 20)), Err(Error::unread()));
}

#[test]
fn targets_below_targets() {
    let nested = |depth: usize| format!("{{\"target\":{}{}}}", "{\"a\":".repeat(depth) + "{}", "}".repeat(depth));
    let mut found = read::<de::Config>(&nested(DEPTH - 2)).unwrap().target;
    let mut depth = 0;
    while let Some(target) = found.remove("a") {
        (found, depth) = (target.nested, depth + 1);
    }
    assert_eq!(depth, DEPTH - 2);
    assert_eq!(read::<de::Config>(&nested(DEPTH - 1)).unwrap_err(), Error::unread());
    // What isn't such a table is left out, at each depth.
    let text = r#"{"a":{"b":[1],"c":{"linker":3},"d":{"e":{"linker":true},"linker":"l"},"linker":4},"f":{"g":"x"},"runner":"r"}"#;
    let target: de::TargetConfig = read(text).unwrap();
    assert_eq!(target.nested.keys().collect::<Vec<_>>(), ["f"]);
    assert!(target.nested["f"].nested.is_empty() && target.runner.is_some());
    assert!(read::<de::TargetConfig>("{\"a\":{\"linker\":3,\"x\":tru}}").is_err());
}

#[test]
fn the_file_of_origins_is_replaced() {
    let text = r#"{"alias":{"a":[{"origin":{"file":"/lone"},"value":"b"}]},"net":{"retry":{"origin":{"variable":"V"},"value":1}}}"#;
    let config: de::Config = read_of_file(text, "/f").unwrap();
    let origin = config.alias["a"].list[0].definition.as_ref().map(ToString::to_string);
    assert_eq!(origin.as_deref(), Some("/f"));
    let origin = config.net.retry.unwrap().definition.map(|origin| origin.to_string());
    assert_eq!(origin.as_deref(), Some("environment variable `V`"));
}

const CONFIG: &str = r#"{"alias":{"a":[{"origin":{"file":"\u00e9"},"value":"b"}]},"build":{"jobs":{"origin":null,"value":-3}},
    "doc":{"browser":{"origin":{"command-line":null},"value":["p","q"]}},"env":{"E":{"force":{"origin":{"variable":"V"},
    "value":true},"value":{"origin":null,"value":"x"}}},"registry":{"token":{"origin":null,"value":"t"}},"target":{"t":{"linker":
    {"origin":null,"value":"l"},"x":{"y":{"rustflags":[]},"z":[{"a":-1}]}}}}"#;

#[test]
fn changed_documents_are_read_or_refused() {
    assert_eq!(read::<de::Config>(CONFIG).unwrap().build.jobs.unwrap().val, -3);
    expect_read_or_refused::<de::Config>(CONFIG);
}

// Expects that some of the changed texts are read, and that no beginning is.
fn expect_read_or_refused<T: FromJson + fmt::Debug>(text: &str) {
    let (good, bad): (Vec<_>, Vec<_>) = changed(text).map(|text| read::<T>(&text)).partition(Result::is_ok);
    assert!(good.len() > 100 && bad.len() > 1000, "{} {}", good.len(), bad.len());
    for (at, _) in text.char_indices() {
        assert_eq!(read::<T>(&text[..at]).unwrap_err(), Error::unread(), "{}", &text[..at]);
    }
}

// Each text that comes of this one where one character is left out or replaced, or a value is put in front of it.
fn changed(text: &str) -> impl Iterator<Item = String> + '_ {
    text.char_indices().flat_map(move |(at, sign)| {
        let (front, rest) = (&text[..at], &text[at + sign.len_utf8()..]);
        let replaced = ["", "\"", "'", "\\", "[", "]", "{", "\n", "0", "é", "=", "null", "{}", "[]"].into_iter();
        replaced.map(move |by| format!("{front}{by}{rest}"))
    })
}
