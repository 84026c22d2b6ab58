//! Answers, and their rows.
use crate::Error;
use std::borrow::Cow;

/// What became of a command line.
#[derive(Clone, Copy, Debug, PartialEq, Eq)]
pub enum Outcome {
    /// It compiles, and [`Answer::command`] may run in its place.
    Compiled,
    /// Its result can't be cached: [`Answer::reason`].
    CannotCache,
    /// It compiles nothing.
    NotCompilation,
}

/// An answer: the outcome, and rows.
#[derive(Clone, Debug)]
pub struct Answer {
    outcome: Outcome,
    text: Vec<u8>,
    has_unknown: bool,
}

/// A row of an answer: a name, and fields.
#[derive(Clone, Copy, Debug)]
pub struct Row<'a> {
    line: &'a [u8],
}

/// A file that the command writes.
#[derive(Clone, Debug, PartialEq, Eq)]
pub struct Output<'a> {
    /// What it is: `obj`, `d`, `dwo` ..
    pub name: Cow<'a, [u8]>,
    /// Where it is.
    pub path: Cow<'a, [u8]>,
    /// Whether the command may leave it unwritten.
    pub is_optional: bool,
}

/// A row of a key (docs/PROTOCOL.md, A key).
#[derive(Clone, Debug, PartialEq, Eq)]
pub struct KeyRow<'a> {
    /// Its name.
    pub name: Cow<'a, [u8]>,
    /// What follows the name.
    pub fields: Vec<Cow<'a, [u8]>>,
}

impl KeyRow<'_> {
    /// Whether its answer goes into the key.
    pub fn is_asked(&self) -> bool {
        !matches!(&*self.name, b"is" | b"output" | b"bases" | b"shown")
    }

    /// Whether of the row itself only the name goes into the key.
    pub fn is_named(&self) -> bool {
        matches!(&*self.name, b"plan" | b"run" | b"run-else" | b"pch")
    }

    /// Whether the row goes into the key only if its macro counts.
    pub fn may_be_left_out(&self) -> bool {
        &*self.name == b"shown"
    }

    /// Whether the row is one of this protocol, with as many fields.
    fn is_known(&self) -> bool {
        match (&*self.name, self.fields.len()) {
            (b"is", count) => count > 0,
            (b"output", count) => count == 2 || count == 3,
            (b"plan" | b"run" | b"run-else" | b"pch", _) => true,
            (
                b"directory" | b"compiler" | b"sources" | b"times" | b"bases" | b"bases-if-beside",
                count,
            ) => count == 0,
            (
                b"env" | b"unset" | b"file" | b"maybe" | b"regular" | b"sources-if-shown"
                | b"refuse-if-shown" | b"bases-if-shown" | b"bases-if-planned" | b"shown",
                count,
            ) => count == 1,
            _ => false,
        }
    }
}

impl<'a> Row<'a> {
    /// The row's name.
    pub fn name(self) -> &'a [u8] {
        self.line
            .split(|&byte| byte == b' ')
            .next()
            .unwrap_or_default()
    }

    /// The fields after the name, as the bytes that they stand for.
    pub fn fields(self) -> impl Iterator<Item = Cow<'a, [u8]>> {
        self.line
            .split(|&byte| byte == b' ')
            .skip(1)
            .map(read_field)
    }

    fn key(self) -> KeyRow<'a> {
        let mut fields = self.fields();
        KeyRow {
            name: fields.next().unwrap_or_default(),
            fields: fields.collect(),
        }
    }

    /// Whether it says no more than this crate knows, of what decides whether an outcome is kept.
    fn is_known(self) -> bool {
        let most = match self.name() {
            b"key" => return self.key().is_known(),
            b"keep" => {
                return matches!(
                    (self.fields().next().as_deref(), self.fields().count()),
                    (Some(b"yes"), 1) | (Some(b"no"), 3) | (Some(b"unknown"), 2)
                );
            }
            b"double-dash-input"
            | b"external-assembler"
            | b"show-includes"
            | b"explicit-language"
            | b"profile-generate"
            | b"no-rewrite-includes-only" => 0,
            b"environment" => 2,
            b"output" => 3,
            b"arg" | b"hazard" | b"cacheable" | b"language" | b"color" | b"dependency"
            | b"preprocessor" | b"common" | b"arch" | b"unhashed" | b"dist" | b"hash"
            | b"input" | b"compilation-flag" | b"depfile" | b"too-hard" => 1,
            _ => usize::MAX,
        };
        self.fields().count() <= most
    }
}

/// The rows of a text.
pub(crate) fn rows_in(text: &[u8]) -> impl Iterator<Item = Row<'_>> {
    text.split(|&byte| byte == b'\n')
        .filter(|line| !line.is_empty())
        .map(|line| Row { line })
}

/// The first field of the first row of this name, if it is UTF-8.
pub(crate) fn field_of(text: &[u8], name: &[u8]) -> Option<String> {
    let row = rows_in(text).find(|row| row.name() == name)?;
    String::from_utf8(row.fields().next()?.into_owned()).ok()
}

/// The bytes that a field stands for; they are borrowed where it has no escape.
fn read_field(field: &[u8]) -> Cow<'_, [u8]> {
    if !field.contains(&b'\\') {
        return Cow::Borrowed(field);
    }
    let (mut bytes, mut rest) = (Vec::with_capacity(field.len()), field);
    while let [first, tail @ ..] = rest {
        let escaped = (*first == b'\\').then(|| escaped_byte(rest)).flatten();
        bytes.push(escaped.unwrap_or(*first));
        rest = if escaped.is_some() { &rest[4..] } else { tail };
    }
    Cow::Owned(bytes)
}

/// The byte of `\xHH`, if the text begins with that.
fn escaped_byte(text: &[u8]) -> Option<u8> {
    let digits = text.get(..4)?.strip_prefix(b"\\x")?;
    u8::from_str_radix(std::str::from_utf8(digits).ok()?, 16).ok()
}

impl Answer {
    /// The answer that a description says.
    pub(crate) fn of(text: Vec<u8>) -> Result<Answer, Error> {
        let first = text.split(|&byte| byte == b'\n').next().unwrap_or_default();
        let outcome = match (Row { line: first }).name() {
            b"ok" => Outcome::Compiled,
            b"cannot-cache" => Outcome::CannotCache,
            b"not-compilation" => Outcome::NotCompilation,
            b"too-many-words" => return Err(Error::TooManyWords),
            _ => return Err(Error::Newer),
        };
        let mut answer = Answer {
            outcome,
            text,
            has_unknown: false,
        };
        if answer.text.last() != Some(&b'\n') || answer.first("version").as_deref() != Some(b"1") {
            return Err(Error::Newer);
        }
        let is_known = answer.rows().all(Row::is_known);
        answer.has_unknown = !is_known;
        Ok(answer)
    }

    /// What became of the command line.
    pub fn outcome(&self) -> Outcome {
        self.outcome
    }

    /// All rows, in order.
    pub fn rows(&self) -> impl Iterator<Item = Row<'_>> {
        rows_in(&self.text).skip(1)
    }

    /// The rows of this name, in order.
    pub fn rows_named<'a>(&'a self, name: &'a str) -> impl Iterator<Item = Row<'a>> {
        self.rows().filter(move |row| row.name() == name.as_bytes())
    }

    /// The first field of each row of this name.
    pub fn words<'a>(&'a self, name: &'a str) -> impl Iterator<Item = Cow<'a, [u8]>> {
        self.rows_named(name).filter_map(|row| row.fields().next())
    }

    /// The first field of the first row of this name.
    pub fn first<'a>(&'a self, name: &'a str) -> Option<Cow<'a, [u8]>> {
        self.words(name).next()
    }

    /// Whether the outcome of the command may be kept. It is false if the answer says more than this crate knows of that.
    pub fn is_cacheable(&self) -> bool {
        !self.has_unknown
            && self.first("cacheable").as_deref() == Some(b"yes")
            && self.words("keep").all(|what| what.as_ref() == b"yes")
    }

    /// The words after the program.
    pub fn command(&self) -> impl Iterator<Item = Cow<'_, [u8]>> {
        self.words("arg")
    }

    /// The input.
    pub fn input(&self) -> Option<Cow<'_, [u8]>> {
        self.first("input")
    }

    /// How the compiler is known to treat the command differently: if there is one, run the given words.
    pub fn hazards(&self) -> impl Iterator<Item = Cow<'_, [u8]>> {
        self.words("hazard")
    }

    /// The files that the command writes.
    pub fn outputs(&self) -> impl Iterator<Item = Output<'_>> {
        self.rows_named("output").filter_map(|row| {
            let mut fields = row.fields();
            Some(Output {
                name: fields.next()?,
                path: fields.next()?,
                is_optional: fields.next().is_some(),
            })
        })
    }

    /// The rows of the key, in order.
    pub fn key(&self) -> impl Iterator<Item = KeyRow<'_>> {
        self.rows_named("key").map(Row::key)
    }

    /// Why nothing may be kept: pairs of a reason and a word. The reason is `unknown` of an option of which nothing is known.
    pub fn keep_no(&self) -> impl Iterator<Item = (Cow<'_, [u8]>, Cow<'_, [u8]>)> {
        self.rows_named("keep").filter_map(|row| {
            let mut fields = row.fields();
            match fields.next()?.as_ref() {
                b"yes" => None,
                b"unknown" => Some((Cow::Borrowed(&b"unknown"[..]), fields.next()?)),
                _ => Some((fields.next()?, fields.next()?)),
            }
        })
    }

    /// The paths of a kind (`file`, `dir`, `exists`) whose presence could change the answer.
    pub fn wanted<'a>(&'a self, kind: &'a str) -> impl Iterator<Item = Cow<'a, [u8]>> {
        self.rows_named("wants").filter_map(move |row| {
            let mut fields = row.fields();
            (fields.next()?.as_ref() == kind.as_bytes())
                .then(|| fields.next())
                .flatten()
        })
    }

    /// Why the result can't be cached.
    pub fn reason(&self) -> Option<Cow<'_, [u8]>> {
        self.first("reason")
    }

    /// What the reason means.
    pub fn sentence(&self) -> Option<Cow<'_, [u8]>> {
        self.first("sentence")
    }

    /// The index of the word that is refused, or by which nothing is compiled.
    pub fn at(&self) -> Option<usize> {
        std::str::from_utf8(&self.first("at")?).ok()?.parse().ok()
    }
}

#[cfg(test)]
mod tests {
    use super::*;
    use crate::Request;

    fn told(rows: &str) -> Answer {
        Answer::of(format!("ok\narg -c\ncacheable yes\nversion 1\n{rows}").into_bytes()).unwrap()
    }

    #[test]
    fn fields_are_read() {
        let answer = told("output obj a\\x20b\\x5c optional\nenvironment K \n");
        let outputs: Vec<_> = answer.outputs().collect();
        assert_eq!(outputs[0].path.as_ref(), b"a b\\");
        assert!(outputs[0].is_optional);
        let pair: Vec<_> = answer
            .rows_named("environment")
            .next()
            .unwrap()
            .fields()
            .collect();
        assert_eq!(pair, [&b"K"[..], b""]);
    }

    #[test]
    fn what_is_not_known_is_not_kept() {
        assert!(told("").is_cacheable());
        assert!(told("notes a b c\nkey env A\n").is_cacheable());
        assert!(told("key env A\nkeep yes\n").is_cacheable());
        let shared =
            "key bases\nkey bases-if-beside\nkey bases-if-shown a\nkey bases-if-planned a\n";
        assert!(told(&format!("{shared}key shown -DA\n")).is_cacheable());
        for rows in [
            "key what A\n",
            "key env\n",
            "key shown\n",
            "key bases /w\n",
            "key env A B\n",
            "keep no hazard x\n",
            "keep not\n",
            "keep yes x\n",
            "keep unknown x\n",
            "hazard a b\n",
        ] {
            assert!(!told(rows).is_cacheable(), "{rows}");
        }
    }

    #[test]
    fn another_protocol_is_refused() {
        for text in [
            "ok\nversion 2\n",
            "ok\n",
            "",
            "what\nversion 1\n",
            "ok\nversion 1",
        ] {
            assert_eq!(
                Answer::of(text.as_bytes().to_vec()).map(|_| ()),
                Err(Error::Newer),
                "{text:?}"
            );
        }
        assert_eq!(
            Answer::of(b"too-many-words\nversion 1\n".to_vec()).map(|_| ()),
            Err(Error::TooManyWords)
        );
    }

    #[test]
    fn any_bytes_come_back() {
        let word: Vec<u8> = b"-D".iter().copied().chain(1..=255).collect();
        let answer = Request::new("gcc")
            .words(["-c", "a.c"])
            .words([&word])
            .ask()
            .unwrap();
        assert!(answer.command().any(|it| it.as_ref() == word));
    }

    #[test]
    fn a_refused_line_says_why() {
        let answer = Request::new("gcc").words(["-E", "a.c"]).ask().unwrap();
        assert_eq!(
            (answer.outcome(), answer.at()),
            (Outcome::CannotCache, Some(0))
        );
        assert_eq!(answer.reason().as_deref(), Some(&b"-E"[..]));
        assert_eq!(answer.command().count(), 0);
        assert!(!answer.is_cacheable());
    }
}
