//! A text that is read byte by byte, as long as a listing can go on so.

use super::number::{begins_number, number_in, Fitting};

/// What was to stand where a text stops being the beginning of a listing. Only the
/// comparison asks for it, to know what was tried.
#[derive(Clone, Copy, Debug, PartialEq, Eq)]
pub enum Part {
    Opening,
    Size,
    Slot,
    Word,
    Operator,
    Input,
    Attribute,
    Output,
    /// Brackets, and spaces between other parts and between numbers.
    Between,
    Out,
    LineEnd,
    /// Nothing: the listing is complete.
    Nothing,
}

/// "the place of the first byte at which no listing can go on, or the text's length
/// where it ends early"
#[derive(Clone, Copy, Debug, PartialEq, Eq)]
pub struct Stop {
    pub place: usize,
    pub part: Part,
}

pub struct Cursor<'a> {
    text: &'a [u8],
    place: usize,
}

impl<'a> Cursor<'a> {
    pub fn new(text: &'a [u8]) -> Cursor<'a> {
        Cursor { text, place: 0 }
    }

    pub fn is_at(&self, byte: u8) -> bool {
        self.text.get(self.place) == Some(&byte)
    }

    fn stop(&self, part: Part) -> Stop {
        Stop { place: self.place, part }
    }

    /// What has been taken from this place on.
    fn taken(&self, from: usize) -> &'a [u8] {
        &self.text[from..self.place]
    }

    /// Takes one more byte, if what is taken from this place on can go on so.
    fn take(&mut self, from: usize, can_go_on: impl Fn(&[u8]) -> bool) -> bool {
        let goes_on = self.text.get(from..=self.place).is_some_and(can_go_on);
        self.place += usize::from(goes_on);
        goes_on
    }

    /// Takes one of these texts, of which none begins another.
    pub fn one_of<'t>(&mut self, texts: &[&'t str], part: Part) -> Result<&'t str, Stop> {
        let from = self.place;
        while self.take(from, |taken| texts.iter().any(|text| text.as_bytes().starts_with(taken))) {
        }
        let whole = texts.iter().find(|text| text.as_bytes() == self.taken(from));
        whole.copied().ok_or(self.stop(part))
    }

    /// Takes a number that fits. What may follow a number begins with no digit.
    pub fn number(&mut self, fitting: Fitting, part: Part) -> Result<i64, Stop> {
        let from = self.place;
        while self.take(from, |taken| begins_number(taken, &fitting)) {}
        number_in(self.taken(from), &fitting).ok_or(self.stop(part))
    }

    /// Nothing may follow.
    pub fn end(&self) -> Result<(), Stop> {
        match self.place == self.text.len() {
            true => Ok(()),
            false => Err(self.stop(Part::Nothing)),
        }
    }
}
