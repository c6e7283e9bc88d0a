//! Tokens of registries, which JSON doesn't have unless they are asked for.
use crate::error::{Error, Result};

/// The JSON without the members that are tokens, where it is what is set at a key, else the whole configuration.
///
/// # Errors
/// Where a token is at the key itself. Where the JSON isn't as the library writes it: without white space.
pub(crate) fn without_tokens(json: &str, key: Option<&str>) -> Result<String> {
    let mut scanner = Scanner { rest: json, kept: String::new(), path: key.map(pieces).unwrap_or_default() };
    if scanner.is_at_token() {
        let key = key.unwrap_or_default();
        return Err(Error::new(&format!("`{key}` is a token, which `Config::json_with_tokens` answers")));
    }
    scanner.value().ok_or_else(Error::unread)?;
    scanner.kept.push_str(scanner.rest);
    Ok(scanner.kept)
}

// The pieces of a key, which are between dots, as they are or in quotes that they don't have. The library took it for a key.
fn pieces(key: &str) -> Vec<&str> {
    let (mut found, mut rest) = (Vec::new(), key);
    while let Some(first) = rest.chars().next() {
        let is_quoted = first == '"' || first == '\'';
        let body = if is_quoted { &rest[1..] } else { rest };
        let end = body.find(if is_quoted { first } else { '.' }).unwrap_or(body.len());
        found.push(&body[..end]);
        let left = body[end..].strip_prefix(first).filter(|_| is_quoted).unwrap_or(&body[end..]);
        rest = left.strip_prefix('.').unwrap_or(left);
    }
    found
}

// What is left of a JSON text, what is kept of it so far, and the keys that lead to where it is.
struct Scanner<'a> {
    rest: &'a str,
    kept: String,
    path: Vec<&'a str>,
}

impl<'a> Scanner<'a> {
    // Whether a token of a registry is at these keys.
    fn is_at_token(&self) -> bool {
        matches!(self.path[..], ["registry", "token"] | ["registries", _, "token"])
    }

    // Keeps the value that begins here, without the tokens in it. None where there is none.
    fn value(&mut self) -> Option<()> {
        match self.rest.chars().next()? {
            '{' => self.object(),
            '[' => self.array(),
            '"' => self.string().map(drop),
            _ => self.keep(self.rest.find([',', ']', '}', '\n']).unwrap_or(self.rest.len())).map(drop),
        }
    }

    fn object(&mut self) -> Option<()> {
        self.sign('{')?;
        let mut has_members = false;
        while !self.rest.starts_with('}') {
            let before = self.kept.len();
            if has_members {
                self.kept.push(',');
            }
            let name = self.string()?;
            self.path.push(name);
            self.sign(':')?;
            self.value()?;
            if self.is_at_token() {
                self.kept.truncate(before);
            } else {
                has_members = true;
            }
            self.path.pop();
            self.rest = self.rest.strip_prefix(',').unwrap_or(self.rest);
        }
        self.sign('}')
    }

    fn array(&mut self) -> Option<()> {
        self.sign('[')?;
        while !self.rest.starts_with(']') {
            self.value()?;
            if !self.rest.starts_with(']') {
                self.sign(',')?;
            }
        }
        self.sign(']')
    }

    // Keeps a string; what is between its quotes, as it is written.
    fn string(&mut self) -> Option<&'a str> {
        let mut is_escaped = false;
        let end = self.rest.strip_prefix('"')?.find(|next| {
            let is_end = next == '"' && !is_escaped;
            is_escaped = next == '\\' && !is_escaped;
            is_end
        })?;
        let string = self.keep(end + 2)?;
        Some(&string[1..=end])
    }

    // Keeps one of the signs between values, where it is next.
    fn sign(&mut self, sign: char) -> Option<()> {
        self.rest.starts_with(sign).then(|| self.keep(1).map(drop))?
    }

    // Keeps so many bytes; what they are. None where there aren't so many, or none at all.
    fn keep(&mut self, length: usize) -> Option<&'a str> {
        let (kept, rest) = self.rest.split_at_checked(length).filter(|_| length > 0)?;
        self.kept.push_str(kept);
        self.rest = rest;
        Some(kept)
    }
}

#[cfg(test)]
mod tests {
    use super::*;

    fn kept(json: &str, key: Option<&str>) -> String {
        without_tokens(json, key).unwrap()
    }

    #[test]
    fn tokens_are_left_out() {
        let json = r#"{"registry":{"default":"r","token":"[REDACTED]"},"term":{"quiet":true}}"#;
        assert_eq!(kept(json, None), r#"{"registry":{"default":"r"},"term":{"quiet":true}}"#);
        let json = "{\"registries\":{\"r\":{\"token\":\"[REDACTED]\",\"index\":\"i\"},\"token\":{\"token\":\"\"}}}\n";
        assert_eq!(kept(json, None), "{\"registries\":{\"r\":{\"index\":\"i\"},\"token\":{}}}\n");
        assert_eq!(kept(r#"{"token":"a"}"#, Some("registry")), "{}");
        assert_eq!(kept(r#"{"a":{"token":"a"},"b":{}}"#, Some("registries")), r#"{"a":{},"b":{}}"#);
        assert_eq!(kept(r#"{"index":"i","token":"a"}"#, Some("registries.'a.b'")), r#"{"index":"i"}"#);
    }

    #[test]
    fn all_else_stays() {
        for json in [
            "{}",
            "4",
            "[]\n",
            r#"["a,b","\"]","\\",1,true,[{}],{"a":null}]"#,
            r#"{"alias":{"token":"[REDACTED]"},"env":{"registry":{"token":"t"},"é\"":-1}}"#,
        ] {
            assert_eq!(kept(json, None), json);
        }
        assert_eq!(kept(r#"{"token":"[REDACTED]"}"#, Some("alias")), r#"{"token":"[REDACTED]"}"#);
        assert_eq!(kept("\"[REDACTED]\"\n", Some("alias.token")), "\"[REDACTED]\"\n");
    }

    #[test]
    fn a_token_alone_is_refused() {
        for key in ["registry.token", "registries.r.token", "registries.'a.b'.token", "registries.\"a.b\".'token'"] {
            assert!(
                without_tokens("\"[REDACTED]\"", Some(key)).unwrap_err().to_string().contains("is a token"),
                "{key}"
            );
        }
    }

    #[test]
    fn what_is_no_json() {
        for json in ["", "{", "{\"a\"", "{\"a\":", "[1", "\"", "\"\\\"", "{a}", "}"] {
            assert_eq!(without_tokens(json, None), Err(Error::unread()), "{json}");
        }
    }
}
