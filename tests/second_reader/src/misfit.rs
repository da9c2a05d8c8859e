//! What does not fit: its place, what is wrong there, and the words that it
//! breaks.  02, C-16: "With refusal 3 the answer then carries the first place".

use crate::words::NUMBERS;

/// What is wrong at a place.
#[derive(Debug, Clone, Copy, PartialEq, Eq)]
pub enum Kind {
    /// A header that ends too early: no length octet, or not all of them.
    CutOff,
    /// No octet at all where an element has to stand; also too few items.
    Missing,
    /// An element longer than what holds it.
    Overrun,
    /// A tag that is refused everywhere, or a length in a form that is.
    HeaderForm,
    /// Octets behind all that belongs into a holder.
    LeftOver,
    /// Another tag than the one that the layout wants.
    WrongTag,
    /// Contents that break a rule.
    WrongContent,
    /// An OID a second time in one list of extensions.
    Repeat,
    /// An item beyond a limit of number or depth.
    Limit,
}

impl Kind {
    pub const ALL: [Kind; 9] = [
        Kind::CutOff,
        Kind::Missing,
        Kind::Overrun,
        Kind::HeaderForm,
        Kind::LeftOver,
        Kind::WrongTag,
        Kind::WrongContent,
        Kind::Repeat,
        Kind::Limit,
    ];

    pub fn words(self) -> &'static str {
        match self {
            Kind::CutOff => "cut off",
            Kind::Missing => "missing",
            Kind::Overrun => "overrun",
            Kind::HeaderForm => "header form",
            Kind::LeftOver => "left over",
            Kind::WrongTag => "wrong tag",
            Kind::WrongContent => "wrong content",
            Kind::Repeat => "repeat",
            Kind::Limit => "limit",
        }
    }
}

/// Octets that do not fit the layout: the place, counted from the response's
/// start, what is wrong there, and the words of 01 or 02 that they break.
#[derive(Debug, Clone, Copy, PartialEq, Eq)]
pub struct Misfit {
    pub place: usize,
    pub kind: Kind,
    pub why: &'static str,
}

impl Misfit {
    pub fn new(kind: Kind, place: usize, why: &'static str) -> Misfit {
        Misfit { place, kind, why }
    }
}

/// A refusal of the check, with the misfit for 3.
#[derive(Debug, Clone, Copy, PartialEq, Eq)]
pub struct Refusal {
    pub number: u8,
    pub status: u8,
    pub misfit: Option<Misfit>,
    pub why: &'static str,
}

impl Refusal {
    /// A refusal that is more than its number only in words.
    pub fn plain(number: u8) -> Refusal {
        Refusal { number, status: 0, misfit: None, why: NUMBERS[usize::from(number) - 1] }
    }

    /// Refusal 4: "the status goes with the number".
    pub fn failed(status: u8) -> Refusal {
        Refusal { status, ..Refusal::plain(4) }
    }

    /// The place, which goes with refusal 3 alone.
    pub fn place(&self) -> Option<usize> {
        self.misfit.map(|misfit| misfit.place)
    }
}

impl From<Misfit> for Refusal {
    fn from(misfit: Misfit) -> Refusal {
        Refusal { number: 3, status: 0, misfit: Some(misfit), why: misfit.why }
    }
}
