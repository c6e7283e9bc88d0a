//! What the original doesn't have: questions by the words of the program `cc2_get`.
use crate::error::{Error, Result};
use crate::known::Known;
use crate::machine::{known_from, text_of};
use crate::options::ResolveOptions;
use crate::reply::Reply;
use std::{fs, io};

/// An answer: what `cc2_get` prints, and the status that it ends with.
#[derive(Clone, Debug, PartialEq, Eq)]
pub struct Answer {
    /// 0 where the text is the answer, 1 where it is a refusal, 2 where the words are no question.
    pub status: u8,
    /// The lines, or the JSON.
    pub text: String,
}

/// The answer to `cc2_get`'s words, by the process's directory and variables, its files and its programs. `DIR` is looked up
/// by its physical path. The words `DIR show ..` have the resolved configuration, or what is at a key, as `cc2.h` says. The
/// words `DIR several ITEM..` have several answers by one load: an item is `build` (resolved), `rustc`, `host`, `target T`,
/// `cfg T NAME`, `rustc-version` or `cargo-version`, and an empty line follows the lines of each.
///
/// # Errors
/// Where the process's directory can't be had, where `DIR` can't be entered, and where the library can't be asked.
pub fn answer(words: &[String]) -> Result<Answer> {
    let dir = words.first().map_or("", String::as_str);
    let (mut known, _) = known_from(dir, &ResolveOptions::default())?;
    match physical(dir) {
        Ok(dir) => answer_by([dir.as_str()].into_iter().chain(words.iter().skip(1).map(String::as_str)), &mut known),
        Err(error) if is_question(words)? => Err(error),
        Err(_) => Ok(Answer { status: 2, text: String::new() }),
    }
}

// The physical path of a directory: absolute, and without symbolic links.
fn physical(dir: &str) -> Result<String> {
    let found = fs::canonicalize(dir).and_then(|path| if path.is_dir() { Ok(path) } else { Err(not_a_directory()) });
    match found {
        Ok(path) => text_of(path),
        Err(error) => Err(Error::new(&format!("cannot enter the directory `{dir}`: {error}"))),
    }
}

// The system's error ENOTDIR (errno(3)).
fn not_a_directory() -> io::Error {
    io::Error::from_raw_os_error(20)
}

// Whether these words are a question: the library then doesn't answer at once that they are none.
fn is_question(words: &[String]) -> Result<bool> {
    let mut known = Known::default();
    known.put_directory("/");
    let reply = known.ask(words.iter().map(String::as_str))?;
    Ok(!matches!(Reply::read(&reply), Some(Reply::Answer(2, _))))
}

/// The answer to these words by what is known, and by what is found out besides. That stays known, but for runs that failed.
pub(crate) fn answer_by<'a>(words: impl Iterator<Item = &'a str> + Clone, known: &mut Known) -> Result<Answer> {
    let answer = answer_to(words, known);
    known.forget_failed();
    answer
}

// The answer to these words.
fn answer_to<'a>(words: impl Iterator<Item = &'a str> + Clone, known: &mut Known) -> Result<Answer> {
    reply_to(words, known, |reply, _| match reply {
        Reply::Answer(status, text) => Ok(Answer { status, text: text.to_owned() }),
        _ => Err(Error::unread()),
    })
}

/// What is read of the reply to these words by what is known, and by what is found out besides, in as many turns as it takes. The
/// reply that is read has no needs.
pub(crate) fn reply_to<'a, T>(
    words: impl Iterator<Item = &'a str> + Clone,
    known: &mut Known,
    read: impl FnOnce(Reply<'_>, &mut Known) -> Result<T>,
) -> Result<T> {
    loop {
        match Reply::read(&known.ask(words.clone())?) {
            // Each need is one that the request lacks. Paths are of a list that the words fix, and a question runs few commands.
            Some(Reply::Needs(needs)) => needs.iter().for_each(|need| known.find_out(need)),
            Some(reply) => return read(reply, known),
            None => return Err(Error::unread()),
        }
    }
}
