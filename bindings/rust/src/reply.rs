//! Replies: an answer, a load, or needs.
use std::str;

/// A reply of the library.
#[derive(Debug, PartialEq, Eq)]
pub(crate) enum Reply<'a> {
    /// The answer: its status and its text.
    Answer(u8, &'a str),
    /// What a load gives: the resolved configuration as cells, and the state for later questions. The state is empty where there
    /// is none.
    Loaded(&'a [u8], &'a [u8]),
    /// All this has to be known.
    Needs(Vec<Need>),
}

/// What has to be known next.
#[derive(Debug, PartialEq, Eq)]
pub(crate) enum Need {
    /// Whether anything is at a path.
    Exists(String),
    /// The content of the file at a path.
    Content(String),
    /// What a program answers to its arguments.
    Run(String, Vec<String>),
}

impl<'a> Reply<'a> {
    /// The reply in these bytes; none where they are no reply, or say that the request is none.
    pub(crate) fn read(bytes: &'a [u8]) -> Option<Reply<'a>> {
        let mut reader = Reader { rest: bytes };
        let reply = match bytes {
            [b'A', status, rest @ ..] => {
                reader.rest = rest;
                Reply::Answer(*status, reader.text()?)
            }
            [b'L', rest @ ..] => {
                reader.rest = rest;
                Reply::Loaded(reader.field()?, reader.field()?)
            }
            _ => Reply::Needs(reader.needs()?),
        };
        reader.rest.is_empty().then_some(reply)
    }
}

struct Reader<'a> {
    rest: &'a [u8],
}

impl<'a> Reader<'a> {
    fn needs(&mut self) -> Option<Vec<Need>> {
        let mut needs = Vec::new();
        while let Some((kind, rest)) = self.rest.split_first() {
            self.rest = rest;
            needs.push(match kind {
                b'E' => Need::Exists(self.text()?.to_owned()),
                b'R' => Need::Content(self.text()?.to_owned()),
                b'P' => Need::Run(self.text()?.to_owned(), self.texts()?),
                _ => return None,
            });
        }
        (!needs.is_empty()).then_some(needs)
    }

    fn number(&mut self) -> Option<usize> {
        let (number, rest) = self.rest.split_first_chunk()?;
        self.rest = rest;
        usize::try_from(u32::from_le_bytes(*number)).ok()
    }

    fn text(&mut self) -> Option<&'a str> {
        str::from_utf8(self.field()?).ok()
    }

    fn field(&mut self) -> Option<&'a [u8]> {
        let length = self.number()?;
        let (field, rest) = self.rest.split_at_checked(length)?;
        self.rest = rest;
        Some(field)
    }

    fn texts(&mut self) -> Option<Vec<String>> {
        let count = self.number()?;
        (0..count).map(|_| self.text().map(str::to_owned)).collect()
    }
}

#[cfg(test)]
mod tests {
    use super::*;

    #[test]
    fn an_answer() {
        let reply = Reply::read(b"A\x01\x02\0\0\0hi");
        assert_eq!(reply, Some(Reply::Answer(1, "hi")));
    }

    #[test]
    fn a_load() {
        let reply = Reply::read(b"L\x02\0\0\0\xfee\x01\0\0\0\xff");
        assert_eq!(reply, Some(Reply::Loaded(b"\xfee", b"\xff")));
    }

    #[test]
    fn needs() {
        let reply = Reply::read(b"E\x01\0\0\0aR\x01\0\0\0bP\x01\0\0\0c\x02\0\0\0\x01\0\0\0d\0\0\0\0");
        let run = Need::Run("c".into(), vec!["d".into(), String::new()]);
        assert_eq!(reply, Some(Reply::Needs(vec![Need::Exists("a".into()), Need::Content("b".into()), run])));
    }

    #[test]
    fn no_reply() {
        for bytes in [
            &b""[..],
            b"B",
            b"A",
            b"A\0",
            b"A\0\x01\0\0\0",
            b"A\0\0\0\0\0x",
            b"L",
            b"L\0\0\0\0",
            b"L\0\0\0\0\0\0\0\0x",
            b"E\x01\0\0\0\xff",
            b"P\0\0\0\0\x01\0\0\0",
        ] {
            assert_eq!(Reply::read(bytes), None, "{bytes:?}");
        }
    }
}
