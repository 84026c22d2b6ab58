//! Which compiler a program is, by its name.
use crate::answer::field_of;
use crate::{Error, Request};

/// What a whole command line starts.
#[derive(Clone, Debug, PartialEq, Eq)]
pub struct Name {
    /// The index of the word that is the program, launchers passed over; none if each word is a launcher or belongs to one.
    pub program: Option<usize>,
    /// The compiler that the program is, as [`Request::new`] takes it; none if its name is not known.
    pub compiler: Option<String>,
}

/// Says which word of a whole command line is the program, and which compiler it is by its name. [`Error::Newer`]: the library does
/// not answer such requests.
pub fn name<Word: AsRef<[u8]>>(words: impl IntoIterator<Item = Word>) -> Result<Name, Error> {
    let text = Request::new("").words(words).naming()?;
    if field_of(&text, b"version").as_deref() != Some("1") {
        return Err(Error::Newer);
    }
    Ok(Name {
        program: field_of(&text, b"program").and_then(|it| it.parse().ok()),
        compiler: field_of(&text, b"compiler"),
    })
}

#[cfg(test)]
mod tests {
    use super::*;

    #[test]
    fn the_program_is_named() {
        for (words, program, compiler) in [
            (&["ccache", "gcc-12", "-c"][..], Some(1), Some("gcc")),
            (&["/usr/bin/x86_64-linux-gnu-g++"], Some(0), Some("g++")),
            (&["rustc"], Some(0), None),
            (&["env", "A=b"], None, None),
            (&[], None, None),
        ] {
            let compiler = compiler.map(String::from);
            assert_eq!(name(words), Ok(Name { program, compiler }), "{words:?}");
        }
    }

    #[test]
    fn a_word_is_one_line() {
        assert_eq!(name(["a\nword gcc"]).map(|it| it.compiler), Ok(None));
    }
}
