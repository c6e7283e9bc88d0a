//! The configuration as JSON.
use super::{words_about, Config};
use crate::cc2::answer_by;
use crate::error::{Error, Result};
use crate::tokens;

impl Config {
    /// What is set at a key, as JSON: the files under the variables and the overrides, with paths as they were written.
    /// Without a key it is the whole configuration. None where nothing is set at the key. The original has no such call; all
    /// tables of its `de` are in this JSON.
    ///
    /// With `origins` each value is an object of `value` and `origin`.
    ///
    /// Tokens, at `registry.token` and `registries.NAME.token`, are left out. With `origins` there is an object of
    /// `origin` and `redacted` for each. `json_with_tokens` has them.
    ///
    /// # Errors
    /// Where the key isn't well formed. Where a token alone is at the key, and `origins` is false. Where the library can't
    /// be asked.
    pub fn json(&self, key: Option<&str>, origins: bool) -> Result<Option<String>> {
        let json = self.json_by(key, origins, false)?;
        match json {
            Some(json) if !origins => tokens::without_tokens(&json, key).map(Some),
            json => Ok(json),
        }
    }

    /// The same as `json`, with tokens as they were set.
    ///
    /// # Errors
    /// Where the key isn't well formed. Where the library can't be asked.
    pub fn json_with_tokens(&self, key: Option<&str>, origins: bool) -> Result<Option<String>> {
        self.json_by(key, origins, true)
    }

    // The JSON that the library answers, where `[REDACTED]` is in the place of each token unless they are asked for.
    fn json_by(&self, key: Option<&str>, origins: bool, has_tokens: bool) -> Result<Option<String>> {
        if let Some(key) = key.filter(|key| key.starts_with("--")) {
            return Err(no_key(key));
        }
        let words = ["show"].into_iter().chain(key).chain(["--format", "json-value", "--environment"]);
        let words = words.chain(origins.then_some("--show-origin")).chain(has_tokens.then_some("--tokens"));
        let words: Vec<_> = words.collect();
        let words = words_about(&self.dir, &words, &self.overrides);
        let answer = self.known.borrow_mut().with_files(|known| answer_by(words, known))?;
        match answer.status {
            0 => Ok(Some(answer.text)),
            1 if answer.text == unset_line(key.unwrap_or_default()) => Ok(None),
            1 => Err(Error::of_lines(&answer.text)),
            _ => Err(no_key(key.unwrap_or_default())),
        }
    }
}

// The error of a text that is no key.
fn no_key(key: &str) -> Error {
    Error::new(&format!("`{key}` is no key"))
}

// What the library says where nothing is at a key.
fn unset_line(key: &str) -> String {
    format!("error: config value `{key}` is not set\n")
}
