//! Two questions: `gv_off`, and a number N for 'is the label's number below N?'.

use jlabel::Label;

#[derive(Debug)]
pub struct ParseError;

impl std::fmt::Display for ParseError {
    fn fmt(&self, f: &mut std::fmt::Formatter<'_>) -> std::fmt::Result {
        f.write_str("no such question")
    }
}

pub trait QuestionMatcher: Sized {
    fn parse<S: AsRef<str>>(patterns: &[S]) -> Result<Self, ParseError>;
    fn test(&self, label: &Label) -> bool;
}

#[derive(Debug, Clone, PartialEq)]
pub enum AllQuestion {
    GvOff,
    Below(usize),
}

impl QuestionMatcher for AllQuestion {
    fn parse<S: AsRef<str>>(patterns: &[S]) -> Result<Self, ParseError> {
        match patterns {
            [one] if one.as_ref() == "gv_off" => Ok(Self::GvOff),
            [one] => one.as_ref().parse().map(Self::Below).or(Err(ParseError)),
            _ => Err(ParseError),
        }
    }

    fn test(&self, label: &Label) -> bool {
        match self {
            Self::GvOff => label.gv_off,
            Self::Below(number) => label.number < *number,
        }
    }
}

pub mod regex {
    use super::{Label, ParseError, QuestionMatcher};

    #[derive(Debug, Clone)]
    pub struct RegexQuestion;

    impl QuestionMatcher for RegexQuestion {
        fn parse<S: AsRef<str>>(_: &[S]) -> Result<Self, ParseError> {
            Err(ParseError)
        }

        fn test(&self, _: &Label) -> bool {
            false
        }
    }
}
