//! What made the answers of the library.
use crate::answer::field_of;
use crate::request::respond_to_other;
use crate::Error;

/// Which release answers, by which rules, in which protocol: what a cache has to tell apart.
#[derive(Clone, Debug, PartialEq, Eq, Hash)]
pub struct Maker {
    /// The library's release, as `1.0.0`.
    pub release: String,
    /// The version of sccache whose rules it follows, as `0.19.0`.
    pub rules: String,
    /// The protocol of its answers.
    pub protocol: u32,
}

/// Says what made the answers of this library. [`Error::Newer`]: the library does not answer such requests.
pub fn made_by() -> Result<Maker, Error> {
    read(&respond_to_other(b"made-by\n")?).ok_or(Error::Newer)
}

fn read(text: &[u8]) -> Option<Maker> {
    Some(Maker {
        release: field_of(text, b"made-by")?,
        rules: field_of(text, b"rules")?,
        protocol: field_of(text, b"version")?.parse().ok()?,
    })
}

#[cfg(test)]
mod tests {
    use super::*;

    #[test]
    fn the_maker_is_told() {
        let made = made_by().unwrap();
        assert_eq!(made.protocol, scl_sys::PROTOCOL);
        assert!(
            made.release.contains('.') && made.rules.contains('.'),
            "{made:?}"
        );
    }

    #[test]
    fn each_row_is_needed() {
        let told = |text: &str| read(text.as_bytes()).map(|it| (it.release, it.rules, it.protocol));
        assert_eq!(
            told("made-by 2.0\nother row\nrules 0.19.0\nversion 1\n"),
            Some(("2.0".into(), "0.19.0".into(), 1))
        );
        for text in [
            "",
            "made-by 2.0\nrules 0.19.0\n",
            "made-by 2.0\nversion 1\n",
            "rules 0.19.0\nversion 1\n",
            "made-by 2.0\nrules 0.19.0\nversion x\n",
        ] {
            assert_eq!(told(text), None, "{text:?}");
        }
    }
}
