//! Why the library refuses.

use std::fmt;

use crate::library::CaseAnswer;

/// What is wrong. Each has the number that the library gives it; 9, the short room, never comes out of this crate.
#[derive(Clone, Copy, Debug, PartialEq, Eq)]
pub enum Refusal {
    /// The octet begins nothing in the form, or codes nothing after SS2.
    BeginsNothing = 1,
    /// A shift or an escape: other alphabets are not read.
    Escape = 2,
    /// What follows a mark or an underline may not. Small g with cedilla is C2 67 (19 42 67 in seven bits), as Annex A of T.51 codes it;
    /// CB 67 (19 4B 67) is this refusal.
    NotAFollower = 3,
    /// The text ends inside an element.
    CutShort = 4,
    /// An octet of 80 or above in the form of seven bits.
    HighOctet = 5,
    /// An octet that is not allowed at this point of a control sequence, where A1 to FE, behind the 9B, count as 21 to 7E.
    NotAllowed = 6,
    /// A value over 999, or a ninth one, in a control sequence.
    PassesLimit = 7,
    /// The 40th octet of a control sequence is not its final.
    Fortieth = 8,
    /// An element that the target form lacks, or words that are none.
    NotHeld = 10,
    /// The form that a case names is none.
    NoForm = 11,
    /// Over 1,048,576 octets or words.
    TooLong = 12,
    /// No TLX case.
    NoCase = 13,
    /// A TLX case of another version.
    Version = 14,
    /// Too many pages, a page that is too long, or a size that is not the lengths'.
    Size = 15,
}

/// A refusal, with the numbers that the library gives. Places are counted from 0, in a case or in pieces from the start of the page.
#[derive(Clone, Copy, Debug, PartialEq, Eq)]
pub struct Error {
    /// What is wrong.
    pub refusal: Refusal,
    /// How many elements stand before the refused one; 0 of [`element_at`](crate::element_at), which reads it by itself.
    pub element: usize,
    /// The place of the refused element's first octet or word.
    pub place: usize,
    /// The place of the octet that decided; where the text is cut short, its length.
    pub count: usize,
    /// The refused page of a case.
    pub page: usize,
}

impl Error {
    /// The error that an answer is, if it is one.
    pub(crate) fn of(said: &CaseAnswer) -> Option<Error> {
        Some(Error {
            refusal: Refusal::of(said.answer.number)?,
            element: said.answer.element,
            place: said.answer.place,
            count: said.answer.count,
            page: said.page,
        })
    }

    /// The place of the octet or word that the refusal is about, where it is about one.
    pub fn at(&self) -> Option<usize> {
        match self.refusal as usize {
            4 | 10 => Some(self.place),
            1..=8 => Some(self.count),
            _ => None,
        }
    }
}

impl Refusal {
    /// The refusal of that number, or `None` for 0, accepted.
    fn of(number: usize) -> Option<Refusal> {
        Some(match number {
            0 => return None,
            1 => Refusal::BeginsNothing,
            2 => Refusal::Escape,
            3 => Refusal::NotAFollower,
            4 => Refusal::CutShort,
            5 => Refusal::HighOctet,
            6 => Refusal::NotAllowed,
            7 => Refusal::PassesLimit,
            8 => Refusal::Fortieth,
            10 => Refusal::NotHeld,
            11 => Refusal::NoForm,
            12 => Refusal::TooLong,
            13 => Refusal::NoCase,
            14 => Refusal::Version,
            15 => Refusal::Size,
            other => unreachable!("the library gives no such number: {other}"),
        })
    }
}

impl fmt::Display for Refusal {
    fn fmt(&self, f: &mut fmt::Formatter<'_>) -> fmt::Result {
        f.write_str(match self {
            Refusal::BeginsNothing => "begins nothing in the form",
            Refusal::Escape => "calls for another alphabet, which is not read",
            Refusal::NotAFollower => "may not follow the mark or the underline before it",
            Refusal::CutShort => "begins an element that the end of the text cuts short",
            Refusal::HighOctet => "is over 7F in a form of seven bits",
            Refusal::NotAllowed => "is not allowed at this point of a control sequence",
            Refusal::PassesLimit => "passes 999 or opens a ninth value in a control sequence",
            Refusal::Fortieth => "is the 40th of a control sequence and does not end it",
            Refusal::NotHeld => "begins an element that the target form lacks",
            Refusal::NoForm => "a form is not 1, 2 or 3",
            Refusal::TooLong => "the text is over 1048576 octets",
            Refusal::NoCase => "this is no TLX case",
            Refusal::Version => "the version of the case is not 1",
            Refusal::Size => "the pages of the case have not the size that it says",
        })
    }
}

impl fmt::Display for Error {
    fn fmt(&self, f: &mut fmt::Formatter<'_>) -> fmt::Result {
        write!(f, "refused with {}: ", self.refusal as u8)?;
        if let Some(at) = self.at() {
            write!(
                f,
                "what stands at place {at}, in element {}, ",
                self.element
            )?;
        }
        self.refusal.fmt(f)
    }
}

impl std::error::Error for Error {}
