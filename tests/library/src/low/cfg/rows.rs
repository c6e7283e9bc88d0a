//! What no clause says: the reasons and spans of faults, printed texts, the order of asking, deep and long texts.
//! A table has a row a line: a text, a bar, and what is shown of the text.

use cc2_cfg::expression::{Expression, Predicate};
use cc2_cfg::lexer::{Lexer, LexerToken};
use cc2_cfg::{CfgError, ParseError, Reason};
use std::alloc::{AllocError, Global};
use std::process::Abort;
use std::test::Fail;

// Checks that each row's text is shown as its second part.
fn expect_rows<S: Fn(Global, &str) -> Result<String, Fail>>(
    rt: &impl Abort,
    alloc: Global,
    rows: &str,
    show: S,
) -> Result<(), Fail> {
    'rows: for row in rows.lines() {
        let Some((text, expected)) = row.split_once('|') else {
            panic!(rt; "no bar in {row}");
        };
        let found = show(alloc, text)?;
        assert_eq!(rt; found.as_str(), expected, "{text}");
    }
    Ok(())
}

const REFUSALS: &str = r#"|0..0 empty expression
 |0..1 empty expression
　|0..3 empty expression
cfg()|0..0 empty expression
,|0..1 expected one of `<key>`, `all`, `any`, `not` here
8|0..1 expected one of `<key>`, `all`, `any`, `not` here
=|0..1 expected one of `<key>`, `all`, `any`, `not` here
(|0..1 expected one of `<key>`, `all`, `any`, `not` here
(a)|0..1 expected one of `<key>`, `all`, `any`, `not` here
é|0..2 expected one of `<key>`, `all`, `any`, `not` here
all(a, €)|7..10 expected one of `<key>`, `all`, `any`, `not` here
a 𝄞 b|2..6 expected one of `<key>`, `all`, `any`, `not` here
a = "é" b|9..10 expected one of `,`, `)` here
key =|5..5 expected a `"<value>"` here
key = value|6..11 expected a `"` here
all|0..3 expected a `(` here
key1, key2|0..10 multiple root predicates
cfg(foo, bar)|0..8 multiple root predicates
key1 = "v", key2|0..16 multiple root predicates
all(a),b|0..8 multiple root predicates
all(a),any(b)|0..13 multiple root predicates
a,,b|0..4 multiple root predicates
a b|2..3 expected one of `=`, `,`, `)` here
foo (|4..5 expected one of `=`, `,`, `)` here
nope()|4..5 expected one of `=`, `,`, `)` here
blah(key)|4..5 expected one of `=`, `,`, `)` here
all(nope())|8..9 expected one of `=`, `,`, `)` here
any(,)|4..5 expected one of `<key>`, `)`, `all`, `any`, `not` here
not(key|3..7 unclosed parens
key)|3..4 unopened parens
key = "value|6..12 unclosed quotes
key = "|6..7 unclosed quotes
not(key = "value)|10..17 unclosed quotes
key = "é|6..9 unclosed quotes
key = "value, key = "value"|21..26 expected one of `,`, `)` here
all(key = "value), key = "value"|26..31 expected one of `,`, `)` here
not()|0..5 not() takes 1 predicate, found 0
not(key_one, key_two)|0..21 not() takes 1 predicate, found 2
any(not(not(key_one, key_two)))|8..29 not() takes 1 predicate, found 2"#;

// Where and why a text is refused.
fn refusal(alloc: Global, text: &str) -> Result<String, Fail> {
    let Err(CfgError::Parse(error)) = Expression::parse(alloc, text) else {
        return Ok(String::from_str(alloc, "accepted")?);
    };
    let (start, end) = (error.span.start, error.span.end);
    let reason = error.reason;
    Ok(format!(in alloc; "{start}..{end} {reason}")?)
}

#[test]
fn refusals(rt: HostRuntime) -> Result<(), Fail> {
    let lines = refusal(rt.alloc(), "\n\t\n")?;
    assert_eq!(rt; lines.as_str(), "0..3 empty expression");
    expect_rows(&rt, rt.alloc(), REFUSALS, refusal)
}

const TOKENS: &str =
    r#"all(any(not(any_blah,all_nope,not_any)))| All OpenParen Any OpenParen Not OpenParen Key("any_blah") Comma Key("all_nope") Comma Key("not_any") CloseParen CloseParen CloseParen
all(any(not(any_blah = "7 q"),all_1))| All OpenParen Any OpenParen Not OpenParen Key("any_blah") Equals Value("7 q") CloseParen Comma Key("all_1") CloseParen CloseParen
cfg(cfg(a)8)| Key("cfg") OpenParen Key("a") CloseParen 6..7
 k　= ""| Key("k") Equals Value("")
é| 0..2"#;

// The tokens of a text, and the span of the fault where there is one.
fn tokens_of(alloc: Global, text: &str) -> Result<String, Fail> {
    let mut shown = String::new(alloc);
    'items: for item in Lexer::new(text) {
        let part = match item {
            Ok(LexerToken { token, .. }) => format!(in alloc; " {token}")?,
            Err(fault) => format!(in alloc; " {}..{}", fault.span.start, fault.span.end)?,
        };
        shown.push_str(part.as_str())?;
    }
    Ok(shown)
}

#[test]
fn tokens(rt: HostRuntime) -> Result<(), Fail> {
    expect_rows(&rt, rt.alloc(), TOKENS, tokens_of)
}

const PREDICATES: &str = r#"cfg(key)| Flag("key")
 key  | Flag("key")
true| Flag("true")
a,| Flag("a")
all()|
all(a,,b,)| Flag("a") Flag("b")
all(a,,b)| Flag("a") Flag("b")
all(a),| Flag("a")
not(a,)| Flag("a")
 key  = "val"| KeyValue { key: "key", val: "val" }
key=""| KeyValue { key: "key", val: "" }
key = "7 q" | KeyValue { key: "key", val: "7 q" }
key = "7 q "| KeyValue { key: "key", val: "7 q " }
not(not(not(k = "v",)))| KeyValue { key: "k", val: "v" }
not(not(not(key = "value",)))| KeyValue { key: "key", val: "value" }
any(a, not(all(b = "c")), a)| Flag("a") KeyValue { key: "b", val: "c" } Flag("a")"#;

// The predicates of a copy.
fn predicates_of(alloc: Global, text: &str) -> Result<String, Fail> {
    let expression = Expression::parse(alloc, text)?.try_clone(alloc)?;
    let mut shown = String::new(alloc);
    'predicates: for predicate in expression.predicates() {
        shown.push_str(format!(in alloc; " {predicate:?}")?.as_str())?;
    }
    Ok(shown)
}

#[test]
fn predicates(rt: HostRuntime) -> Result<(), Fail> {
    expect_rows(&rt, rt.alloc(), PREDICATES, predicates_of)
}

#[test]
fn printed(rt: HostRuntime) -> Result<(), Fail> {
    let alloc = rt.alloc();
    let error = ParseError {
        original: String::from_str(alloc, "not(key = \"v")?,
        span: 10..12,
        reason: Reason::UnclosedQuotes,
    };
    let shown = error.to_string(alloc)?;
    assert_eq!(rt;
        shown.as_str(),
        "not(key = \"v\n          - unclosed quotes"
    );
    let other = ParseError {
        original: String::from_str(alloc, "not(key = \"v")?,
        span: 10..12,
        reason: Reason::Unexpected(&[]),
    };
    assert!(rt; error == error && error != other);
    let shown = CfgError::Parse(other).to_string(alloc)?;
    assert_eq!(rt;
        shown.as_str(),
        "not(key = \"v\n          ^^ the term was not expected here"
    );
    let shown = CfgError::Memory.to_string(alloc)?;
    assert_eq!(rt; shown.as_str(), "out of memory");
    Ok(())
}

// The values in Kleene's logic and in two-valued logic, by `eval` and by `eval_bool`. The flags after
// `where` are set; of those after `?` nothing is known, and in two-valued logic they aren't set.
const VALUES: &str = "all() where |Some(true) true true
any() where |Some(false) false false
not(all()) where |Some(false) false false
not(any()) where |Some(true) true true
all(not(b)) where a|Some(true) true true
any(not(b)) where b|Some(false) false false
all(not(blah)) where |Some(true) true true
any(not(blah)) where blah|Some(false) false false
cfg(all(any(b),a)) where ab|Some(true) true true
cfg(all(any(b),a)) where b|Some(false) false false
cfg(all(any(b),a)) where a|Some(false) false false
any(all(b),a) where a|Some(true) true true
all(any(a), any(a, b), not(b)) where a|Some(true) true true
all(a, b) where a?b|None false false
any(a, b) where a?b|Some(true) true true
all(a, b) where b?a|None false false
any(a, b) where b?a|Some(true) true true
all(a, b) where ?b|Some(false) false false
any(a, b) where ?b|None false false
all(a, b) where ?a|Some(false) false false
any(a, b) where ?a|None false false
all(a, b) where ?ab|None false false
any(a, b) where ?ab|None false false
all(a, b) where a|Some(false) false false
any(a, b) where a|Some(true) true true
not(a) where ?a|None true true";

// Whether the flag is set, where that is known.
fn known(predicate: &Predicate<'_>, flags: &str) -> Option<bool> {
    let (set, unknown) = flags.split_once('?').unwrap_or((flags, ""));
    match predicate {
        Predicate::Flag(flag) if unknown.contains(*flag) => None,
        Predicate::Flag(flag) => Some(set.contains(*flag)),
        Predicate::KeyValue { .. } => Some(false),
    }
}

fn values_of(alloc: Global, text: &str) -> Result<String, Fail> {
    let (text, flags) = text.split_once(" where ").unwrap_or((text, ""));
    let expression = Expression::parse(alloc, text)?;
    let three = expression.eval(alloc, |predicate| known(predicate, flags))?;
    let any = expression.eval(alloc, |predicate| known(predicate, flags) == Some(true))?;
    let two = expression.eval_bool(alloc, |predicate| known(predicate, flags) == Some(true))?;
    Ok(format!(in alloc; "{three:?} {any} {two}")?)
}

#[test]
fn values(rt: HostRuntime) -> Result<(), Fail> {
    expect_rows(&rt, rt.alloc(), VALUES, values_of)
}

const ASKED: &str = "any(a, b)|1 true
all(a, any(b, c), d)|123 false
not(any())|0 true
any(all(b, c), not(a), d)|214 false
not(any(b, all(a, a), c))|211 false
not(all(a, b, a))|12 true
b|2 false";

// What `eval_bool` asks, each flag's place in `abcd` as a digit, and the value, where `a` alone is set.
fn asked(alloc: Global, text: &str) -> Result<String, Fail> {
    let expression = Expression::parse(alloc, text)?;
    let mut digits = 0u32;
    let value = expression.eval_bool(alloc, |predicate| {
        let digit = match predicate {
            Predicate::Flag("a") => 1,
            Predicate::Flag("b") => 2,
            Predicate::Flag("c") => 3,
            _ => 4,
        };
        digits = digits.wrapping_mul(10).wrapping_add(digit);
        digit == 1
    })?;
    Ok(format!(in alloc; "{digits} {value}")?)
}

#[test]
fn questions(rt: HostRuntime) -> Result<(), Fail> {
    expect_rows(&rt, rt.alloc(), ASKED, asked)
}

// Whether the expression holds where this flag alone is set: what `eval_bool` says at a closure.
fn holds(alloc: Global, expression: &Expression, flag: &str) -> Result<bool, CfgError> {
    expression.eval_bool(alloc, |predicate| is_this(predicate, flag))
}

fn is_this(predicate: &Predicate<'_>, flag: &str) -> bool {
    match predicate {
        Predicate::Flag(found) => *found == flag,
        Predicate::KeyValue { .. } => false,
    }
}

// The front, this part as many times, and then the closing text as many times.
fn long(
    alloc: Global,
    front: &str,
    part: &str,
    times: u32,
    middle: &str,
    closing: &str,
) -> Result<String, AllocError> {
    let mut text = String::from_str(alloc, front)?;
    for _ in 0..times {
        text.push_str(part)?;
    }
    text.push_str(middle)?;
    for _ in 0..times {
        text.push_str(closing)?;
    }
    Ok(text)
}

// The value of a long text, where this flag alone is set.
fn long_value(alloc: Global, text: &str, flag: &str) -> Result<bool, CfgError> {
    holds(alloc, &Expression::parse(alloc, text)?, flag)
}

// The same by `eval`.
fn value_by_eval(alloc: Global, text: &str, flag: &str) -> Result<bool, CfgError> {
    let expression = Expression::parse(alloc, text)?;
    expression.eval(alloc, |predicate| is_this(predicate, flag))
}

#[test]
fn deep_and_long(rt: HostRuntime) -> Result<(), Fail> {
    let alloc = rt.alloc();
    let even = long(alloc, "", "not(", 100000, "a", ")")?;
    assert!(rt; value_by_eval(alloc, even.as_str(), "a")?);
    assert!(rt; !value_by_eval(alloc, even.as_str(), "b")?);
    let deep = long(alloc, "", "not(", 100001, "a", ")")?;
    assert!(rt; !long_value(alloc, deep.as_str(), "a")?);
    assert!(rt; long_value(alloc, deep.as_str(), "b")?);
    let words = long(alloc, "all(any(a)", ",any(a)", 255, ")", "")?;
    assert!(rt; long_value(alloc, words.as_str(), "a")?);
    assert!(rt; !long_value(alloc, words.as_str(), "b")?);
    assert!(rt; !value_by_eval(alloc, words.as_str(), "b")?);
    let empty = long(alloc, "any(all()", ",all()", 299, ")", "")?;
    assert!(rt; long_value(alloc, empty.as_str(), "a")?);
    assert!(rt; value_by_eval(alloc, empty.as_str(), "a")?);
    let negated = long(alloc, "not(", "a,", 300, ")", "")?;
    let shown = refusal(alloc, negated.as_str())?;
    assert_eq!(rt; shown.as_str(), "0..605 not() takes 1 predicate, found 300");
    Ok(())
}
