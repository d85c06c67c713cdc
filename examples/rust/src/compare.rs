//! What changed between two texts.

use std::fmt;

use crate::library;
use crate::{Error, Form};

/// What changed between two texts of one form, by what they mean: [`compare`] says it. Elements and places are counted from 0. Where the
/// texts do not mean the same, `tail` is a part of one of them, up to its end.
#[derive(Clone, Copy, Debug, PartialEq, Eq)]
pub enum Compared<'a> {
    /// Both mean the same.
    Same {
        /// How many elements each text has.
        elements: usize,
        /// How many of them are spelled otherwise: by other octets in the one text than in the other. At 0 the texts are the same octets.
        otherwise: usize,
    },
    /// Before either ends, they differ.
    Differ {
        /// How many elements stand before the differing one, the same in both.
        element: usize,
        /// The place of its first octet in the first text.
        first_place: usize,
        /// The place of its first octet in the second text.
        second_place: usize,
        /// The first text, from the differing element on.
        tail: &'a [u8],
    },
    /// The second text ends, and the first goes on.
    FirstGoesOn {
        /// How many elements the second text has; the first begins with the same.
        element: usize,
        /// The place in the first text where it goes on.
        place: usize,
        /// What the first text has more.
        tail: &'a [u8],
    },
    /// The first text ends, and the second goes on.
    SecondGoesOn {
        /// How many elements the first text has; the second begins with the same.
        element: usize,
        /// The place in the second text where it goes on.
        place: usize,
        /// What the second text has more.
        tail: &'a [u8],
    },
}

/// One of the two texts that are compared.
#[derive(Clone, Copy, Debug, PartialEq, Eq)]
pub enum Which {
    /// The first.
    First,
    /// The second.
    Second,
}

/// A refusal of one of the two texts that are compared.
#[derive(Clone, Copy, Debug, PartialEq, Eq)]
pub struct CompareError {
    /// Which text it is.
    pub which: Which,
    /// Why it is refused, with places in that text.
    pub error: Error,
}

/// Says what changed between two texts of one form, by what they mean. Neither is copied: what is lent back is a part of one of them. A text
/// that [`read`](crate::read) refuses is an error, the first before the second; one that is too long comes before both.
///
/// ```no_run
/// use oakentwirl::{compare, Compared, Form};
///
/// // 23 and A6 are both the number sign in basic T.61.
/// let same = Compared::Same { elements: 2, otherwise: 1 };
/// assert_eq!(compare(Form::Basic, b"#1", b"\xA61"), Ok(same));
/// let more = Compared::SecondGoesOn { element: 2, place: 2, tail: b"\xC2e" };
/// assert_eq!(compare(Form::Basic, b"#1", b"\xA61\xC2e"), Ok(more));
/// ```
pub fn compare<'a>(
    form: Form,
    first: &'a [u8],
    second: &'a [u8],
) -> Result<Compared<'a>, CompareError> {
    // SAFETY: each pointer is a slice's, with its length, and nothing is written.
    let said = unsafe {
        library::oak_compare(
            form as u32,
            first.as_ptr(),
            first.len(),
            second.as_ptr(),
            second.len(),
        )
    };
    if let Some(error) = Error::of(&said.answer.into()) {
        let which = Which::of(said.text);
        return Err(CompareError { which, error });
    }
    let element = said.answer.element;
    let place = said.tail_place;
    let of = if said.tail_text == 2 { second } else { first };
    let tail = &of[place..];
    Ok(if said.same != 0 {
        Compared::Same {
            elements: element,
            otherwise: said.otherwise,
        }
    } else if said.tail_text == 2 {
        Compared::SecondGoesOn {
            element,
            place,
            tail,
        }
    } else if said.second_place == second.len() {
        Compared::FirstGoesOn {
            element,
            place,
            tail,
        }
    } else {
        Compared::Differ {
            element,
            first_place: said.first_place,
            second_place: said.second_place,
            tail,
        }
    })
}

impl Which {
    /// The text of that number. No refusal has 0, which is the form's: a [`Form`] is one.
    fn of(text: usize) -> Which {
        match text {
            1 => Which::First,
            2 => Which::Second,
            other => unreachable!("the library names no such text: {other}"),
        }
    }
}

impl fmt::Display for CompareError {
    fn fmt(&self, f: &mut fmt::Formatter<'_>) -> fmt::Result {
        f.write_str(match self.which {
            Which::First => "the first text: ",
            Which::Second => "the second text: ",
        })?;
        self.error.fmt(f)
    }
}

impl std::error::Error for CompareError {}
