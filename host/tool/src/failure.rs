//! Why a run ends without a picture. A refusal is the proved call's own answer; all else is bad usage or a file that
//! can't be read or written.

use dihyravo::{NameError, Refusal};
use std::fmt;

/// The exit status of a refusal.
pub const REFUSED: u8 = 1;
/// The exit status of bad usage and of files that can't be used.
pub const UNUSABLE: u8 = 2;

#[derive(Clone, Debug, PartialEq, Eq)]
pub enum Failure {
    /// A line of the refusal table, and what of this run met it where that is known.
    Refused {
        refusal: Refusal,
        detail: Option<String>,
    },
    /// Anything else, in one line.
    Unusable(String),
}

impl Failure {
    pub fn refused(refusal: Refusal, detail: impl Into<String>) -> Self {
        Self::Refused {
            refusal,
            detail: Some(detail.into()),
        }
    }

    pub fn unusable(what: impl fmt::Display) -> Self {
        Self::Unusable(what.to_string())
    }

    pub fn status(&self) -> u8 {
        match self {
            Self::Refused { .. } => REFUSED,
            Self::Unusable(_) => UNUSABLE,
        }
    }

    /// What to mend, with what is known of this run before the table's own words.
    pub fn mend(&self) -> String {
        match self {
            Self::Refused {
                refusal,
                detail: Some(detail),
            } => format!("{detail}; {}", refusal.mend()),
            Self::Refused {
                refusal,
                detail: None,
            } => refusal.mend().to_owned(),
            Self::Unusable(what) => what.clone(),
        }
    }
}

impl From<Refusal> for Failure {
    fn from(refusal: Refusal) -> Self {
        Self::Refused {
            refusal,
            detail: None,
        }
    }
}

impl From<NameError> for Failure {
    fn from(error: NameError) -> Self {
        let nearest = match crate::text::nearest(error.given(), error.names()) {
            Some(name) => format!(" (did you mean {name}?)"),
            None => String::new(),
        };
        Self::refused(error.refusal(), format!("{error}{nearest}"))
    }
}

/// One line, whatever the words are made of.
impl fmt::Display for Failure {
    fn fmt(&self, f: &mut fmt::Formatter) -> fmt::Result {
        let line = match self {
            Self::Refused { refusal, .. } => {
                format!(
                    "refusal {} ({}): {}",
                    refusal.number(),
                    refusal.word(),
                    self.mend()
                )
            }
            Self::Unusable(what) => what.clone(),
        };
        f.write_str(&one_line(&line))
    }
}

/// The text with a blank for each control character and line end. Blanks stay: a file's name may have any.
pub fn one_line(text: &str) -> String {
    let ends = |c: char| c.is_control() || ['\u{2028}', '\u{2029}'].contains(&c);
    text.replace(ends, " ")
}

#[cfg(test)]
mod tests {
    use super::*;

    #[test]
    fn a_refusal_is_one_line_with_number_word_and_mend() {
        let failure = Failure::refused(Refusal::Window, "the output would be\n0 by 0");
        let line = failure.to_string();
        assert!(
            line.starts_with("refusal 9 (window): the output would be 0 by 0; "),
            "{line}"
        );
        assert!(line.ends_with(Refusal::Window.mend()), "{line}");
        assert_eq!(failure.status(), 1);
    }

    #[test]
    fn a_line_keeps_its_blanks_and_has_no_control_characters() {
        assert_eq!(one_line("a  b\n\tc\u{7f}\u{2028}é"), "a  b  c  é");
    }

    #[test]
    fn an_unknown_name_is_refusal_3_with_the_nearest_name() {
        let error = "perspectiv".parse::<dihyravo::Method>().unwrap_err();
        let line = Failure::from(error).to_string();
        assert!(line.starts_with("refusal 3 (code): "), "{line}");
        assert!(line.contains("did you mean Perspective?"), "{line}");
        assert!(line.contains("Shepards"), "{line}");
    }
}
