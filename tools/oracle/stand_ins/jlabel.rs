//! A label is its number and whether global variance is off for it.

#[derive(Debug, Clone, PartialEq)]
pub struct Label {
    pub number: usize,
    pub gv_off: bool,
}
