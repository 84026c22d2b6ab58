//! Requests, and the call of the library.
use crate::answer::{field_of, rows_in, Row};
use crate::catalogue::{built_in, Catalogue};
use crate::Answer;
use std::borrow::Cow;
use std::fmt;
use std::sync::Arc;

/// Why there is no answer. In each case run the given words, and keep nothing.
#[derive(Clone, Copy, Debug, PartialEq, Eq)]
pub enum Error {
    /// No served compiler has the name.
    UnknownCompiler,
    /// The command line has more words or bytes, or opens files more often, than was allowed.
    TooManyWords,
    /// The library does not know a setting, or this crate the answer.
    Newer,
    /// A line of the catalogue is wrong: its number, from 1.
    BadCatalogue(usize),
    /// The library was refused memory.
    NoMemory,
}

impl fmt::Display for Error {
    fn fmt(&self, to: &mut fmt::Formatter<'_>) -> fmt::Result {
        to.write_str(match self {
            Error::UnknownCompiler => "no such compiler",
            Error::TooManyWords => "too many words",
            Error::Newer => "not known to this library",
            Error::BadCatalogue(_) => "a bad catalogue",
            Error::NoMemory => "out of memory",
        })
    }
}

impl std::error::Error for Error {}

/// What is asked, as a builder. Its methods may be called in any order; words, variables and files are kept in theirs.
#[derive(Clone, Debug)]
pub struct Request {
    compiler: Vec<u8>,
    directory: Vec<u8>,
    lines: Vec<u8>,
    catalogue: Option<Vec<u8>>,
    known: Option<Arc<Catalogue>>,
}

impl Request {
    /// A request to `gcc`, `g++`, `clang`, `clang++`, `cl`, `clang-cl`, `diab` or `tasking`.
    pub fn new(compiler: impl AsRef<[u8]>) -> Request {
        Request {
            compiler: compiler.as_ref().to_vec(),
            directory: Vec::new(),
            lines: Vec::new(),
            catalogue: None,
            known: None,
        }
    }

    /// The path of the directory in which the words are read.
    pub fn directory(&mut self, path: impl AsRef<[u8]>) -> &mut Request {
        self.directory = path.as_ref().to_vec();
        self
    }

    /// The next words of the command line, without the program.
    pub fn words<Word: AsRef<[u8]>>(
        &mut self,
        words: impl IntoIterator<Item = Word>,
    ) -> &mut Request {
        for word in words {
            self.line("word ", word.as_ref(), None);
        }
        self
    }

    /// The next variable of the environment.
    pub fn variable(&mut self, name: impl AsRef<[u8]>, value: impl AsRef<[u8]>) -> &mut Request {
        self.line("env ", name.as_ref(), Some(value.as_ref()))
    }

    /// At the path there is a response file with this text.
    pub fn file(&mut self, path: impl AsRef<[u8]>, text: impl AsRef<[u8]>) -> &mut Request {
        self.line("file ", path.as_ref(), Some(text.as_ref()))
    }

    /// At the path there is a directory.
    pub fn existing_directory(&mut self, path: impl AsRef<[u8]>) -> &mut Request {
        self.line("dir ", path.as_ref(), None)
    }

    /// At the path there is something.
    pub fn existing(&mut self, path: impl AsRef<[u8]>) -> &mut Request {
        self.line("exists ", path.as_ref(), None)
    }

    /// Several architectures are allowed.
    pub fn multiarch(&mut self) -> &mut Request {
        self.lines.extend(b"multiarch\n");
        self
    }

    /// A line `setting` of docs/PROTOCOL.md, without that word, as `bound 10`.
    pub fn setting(&mut self, setting: impl AsRef<[u8]>) -> &mut Request {
        self.lines.extend(b"setting ");
        for &byte in setting.as_ref() {
            put_byte(&mut self.lines, byte, byte == b' ' || byte == b'\\');
        }
        self.lines.push(b'\n');
        self
    }

    /// A directory that differs from checkout to checkout: paths of the key are written by it.
    pub fn base(&mut self, path: impl AsRef<[u8]>) -> &mut Request {
        self.line("setting base ", path.as_ref(), None)
    }

    /// A catalogue that was read, for this request and others. The text of one is then passed over.
    pub fn known(&mut self, catalogue: &Arc<Catalogue>) -> &mut Request {
        self.known = Some(catalogue.clone());
        self
    }

    /// The text of a catalogue over the built-in one, which is read when the request is asked.
    pub fn catalogue(&mut self, text: impl AsRef<[u8]>) -> &mut Request {
        self.catalogue = Some(text.as_ref().to_vec());
        self
    }

    /// The request's text.
    pub fn text(&self) -> Vec<u8> {
        let mut first = Request::new("");
        first
            .line("compiler ", &self.compiler, None)
            .line("cwd ", &self.directory, None);
        first.lines.extend(&self.lines);
        first.lines
    }

    /// Asks the library.
    pub fn ask(&self) -> Result<Answer, Error> {
        let known = match (&self.known, &self.catalogue) {
            (Some(known), _) => known.clone(),
            (None, Some(text)) => Arc::new(Catalogue::new(text)?),
            (None, None) => built_in()?,
        };
        Answer::of(respond(&known, &self.text())?)
    }

    /// The text that the library answers to a request of a name, with the words of this one.
    pub(crate) fn naming(&self) -> Result<Vec<u8>, Error> {
        respond_to_other(&[b"name\n", &self.lines[..]].concat())
    }

    fn line(&mut self, keyword: &str, field: &[u8], value: Option<&[u8]>) -> &mut Request {
        self.lines.extend(keyword.as_bytes());
        put_field(&mut self.lines, field);
        if let Some(value) = value {
            self.lines.push(b'\t');
            put_field(&mut self.lines, value);
        }
        self.lines.push(b'\n');
        self
    }
}

fn put_field(to: &mut Vec<u8>, field: &[u8]) {
    for &byte in field {
        put_byte(to, byte, false);
    }
}

/// A byte as it stands in a request: itself, or two digits.
fn put_byte(to: &mut Vec<u8>, byte: u8, is_plain: bool) {
    if is_plain || (byte.is_ascii_graphic() && byte != b'\\') {
        to.push(byte);
    } else {
        to.extend(format!("\\x{byte:02x}").bytes());
    }
}

/// A line of a request: a keyword, and fields.
pub fn line<Field: AsRef<[u8]>>(fields: impl IntoIterator<Item = Field>) -> Vec<u8> {
    let mut to = Vec::new();
    for field in fields {
        put_field(&mut to, field.as_ref());
        to.push(b' ');
    }
    to.pop();
    to
}

/// The rows of the answer to a request of any kind, which has these lines (docs/PROTOCOL.md, A request); each is a name and fields.
/// [`Error::Newer`]: the library does not answer such requests.
pub fn rows<Line: AsRef<[u8]>>(
    lines: impl IntoIterator<Item = Line>,
) -> Result<Vec<Vec<Vec<u8>>>, Error> {
    let mut request = Vec::new();
    for line in lines {
        request.extend(line.as_ref());
        request.push(b'\n');
    }
    let text = respond_to_other(&request)?;
    if field_of(&text, b"version").as_deref() != Some("1") {
        return Err(Error::Newer);
    }
    let bytes = |row: Row<'_>| {
        let fields = row.fields().map(Cow::into_owned);
        std::iter::once(row.name().to_vec()).chain(fields).collect()
    };
    Ok(rows_in(&text).map(bytes).collect())
}

/// The text that is answered to a request of another kind than of a command line.
pub(crate) fn respond_to_other(request: &[u8]) -> Result<Vec<u8>, Error> {
    respond(&*built_in()?, request).map_err(|error| match error {
        Error::UnknownCompiler => Error::Newer,
        other => other,
    })
}

/// The text of the description of the answer to a request's text.
fn respond(known: &Catalogue, request: &[u8]) -> Result<Vec<u8>, Error> {
    let mut room = vec![0; 4096 + 8 * request.len()];
    loop {
        let mut wanted = 0;
        let (text, len, to, to_len) = (
            request.as_ptr(),
            request.len(),
            room.as_mut_ptr(),
            room.len(),
        );
        // SAFETY: all pointers are of slices with these lengths, which are not null, and `room` is borrowed by nothing else; the
        // handle lives as long as the catalogue.
        let status = unsafe {
            scl_sys::scl_catalogue_describe(known.handle(), text, len, to, to_len, &mut wanted)
        };
        match status {
            scl_sys::OK => {
                room.truncate(wanted);
                return Ok(room);
            }
            scl_sys::SHORT => room.resize(wanted, 0),
            // (the first line names the compiler; each other one is right, or not known)
            scl_sys::BAD if wanted == 1 => return Err(Error::UnknownCompiler),
            scl_sys::BAD | scl_sys::NEWER => return Err(Error::Newer),
            _ => return Err(Error::NoMemory),
        }
    }
}

#[cfg(test)]
mod tests {
    use super::*;

    #[test]
    fn bytes_are_written_as_fields() {
        let mut request = Request::new("gcc");
        request
            .words([&b"a b\\\xff"[..]])
            .file("/r", "x\n")
            .setting("version a b")
            .base("/w d")
            .directory("/w d");
        let text = b"compiler gcc\ncwd /w\\x20d\nword a\\x20b\\x5c\\xff\nfile /r\tx\\x0a\nsetting version a b\nsetting base /w\\x20d\n";
        assert_eq!(request.text(), text);
    }

    #[test]
    fn a_request_of_any_kind_is_answered() {
        let lines = [
            line(["lookup"]),
            line(["compiler", "gcc"]),
            line(["word", "-c"]),
            line([&b"word"[..], b"\xff a.c"]),
        ];
        let rows = rows(lines).unwrap();
        assert!(rows.contains(&vec![
            b"ask".to_vec(),
            b"file".to_vec(),
            b"\xff a.c".to_vec()
        ]));
        assert_eq!(super::rows(["what-none-knows"]), Err(Error::Newer));
    }

    #[test]
    fn errors_are_told_apart() {
        let ask = |compiler: &str, setting: &str| {
            Request::new(compiler)
                .words(["-c", "a.c"])
                .setting(setting)
                .ask()
                .map(|_| ())
        };
        assert_eq!(ask("gcc", "bound 9"), Ok(()));
        assert_eq!(ask("rustc", "bound 9"), Err(Error::UnknownCompiler));
        assert_eq!(ask("gcc", "what-none-knows"), Err(Error::Newer));
        assert_eq!(ask("gcc", "bound 1"), Err(Error::TooManyWords));
        assert_eq!(ask("gcc", "bound 9\nword -E"), Err(Error::Newer));
        let with_catalogue = |text: &str| {
            Request::new("gcc")
                .words(["-c", "a.c"])
                .catalogue(text)
                .ask()
                .map(|_| ())
        };
        assert_eq!(with_catalogue("# none\n"), Ok(()));
        assert_eq!(
            with_catalogue("# one\n\nwhat is this\n"),
            Err(Error::BadCatalogue(3))
        );
    }

    #[test]
    fn a_catalogue_is_shared() {
        let text = "hazard of-ones-own object\n  says It is one's own.\n  gcc: input a.c\n";
        let known = Arc::new(Catalogue::new(text).unwrap());
        let ask = move || {
            let mut request = Request::new("gcc");
            request.words(["-c", "a.c"]).known(&known).catalogue("?");
            let answer = request.ask().unwrap();
            let mut hazards = answer.hazards();
            hazards.any(|it| *it == b"of-ones-own"[..])
        };
        assert!(std::thread::spawn(ask.clone()).join().unwrap() && ask());
        assert_eq!(Catalogue::new("?").map(|_| ()), Err(Error::BadCatalogue(1)));
    }

    #[test]
    fn a_long_answer_has_room() {
        let words: Vec<String> = (0..5000).map(|at| format!("-DNAME{at}=1")).collect();
        let answer = Request::new("gcc")
            .words(["-c", "a.c"])
            .words(&words)
            .ask()
            .unwrap();
        assert_eq!(
            answer
                .command()
                .filter(|word| word.starts_with(b"-DNAME"))
                .count(),
            5000
        );
    }
}
