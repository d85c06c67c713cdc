//! Teletex text and the TLX case, read, written, converted and compared by the proved library Oakentwirl.
//!
//! Text has one of three [`Form`]s and means a list of 32-bit words, which `include/oakentwirl.h` takes apart. Nothing is guessed: input
//! that is not of the form is an [`Error`], which names the octet and its place. A page that comes in pieces is a [`Serial`]; what changed
//! between two texts is a [`Compared`].
//!
//! Some elements have more than one spelling in a form, and each has one that is canonical, which [`write()`] gives. Every spelling is
//! read; what is read or converted says how many were not canonical, and [`element_at`] says it of one.
//!
//! ```no_run
//! use oakentwirl::Form;
//!
//! let read = oakentwirl::read(Form::Eight, b"\xC2e")?;
//! assert_eq!((read.words, read.respelled), (vec![0xE9], 0));
//! // In eight bits the circumflex by itself is canonically 5E.
//! let converted = oakentwirl::convert(Form::Eight, Form::Seven, b"2\xC3 8 caf\xC2e")?;
//! assert_eq!((converted.text, converted.respelled), (b"2^8 caf\x19Be".to_vec(), 1));
//! # Ok::<(), oakentwirl::Error>(())
//! ```

mod compare;
mod element;
mod error;
mod library;
mod serial;

pub use compare::{compare, CompareError, Compared, Which};
pub use element::{element_at, Element};
pub use error::{Error, Refusal};
use library::CaseAnswer;
pub use serial::{Serial, Totals};

/// A form of text.
#[derive(Clone, Copy, Debug, PartialEq, Eq)]
pub enum Form {
    /// T51String in eight bits.
    Eight = 1,
    /// T51String in seven bits.
    Seven = 2,
    /// Basic T.61.
    Basic = 3,
}

/// What a text or a case says: [`read`] and [`read_case`] give it.
#[derive(Clone, Debug, PartialEq, Eq)]
pub struct Reading {
    /// Its words.
    pub words: Vec<u32>,
    /// How many of its elements did not stand in their form's canonical spelling.
    pub respelled: usize,
}

/// What a text was converted to: [`convert`] gives it.
#[derive(Clone, Debug, PartialEq, Eq)]
pub struct Conversion {
    /// The text in the target form, in its canonical spelling.
    pub text: Vec<u8>,
    /// How many elements did not stand in the source form's canonical spelling. At 0, converting back, within the limit, gives the text
    /// that there was; else so many spellings cannot be had back, and [`element_at`] finds them in the text as it came.
    pub respelled: usize,
}

/// Reads a whole text.
pub fn read(form: Form, text: &[u8]) -> Result<Reading, Error> {
    let (words, respelled) = sized(|words: &mut [u32]| {
        // SAFETY: each pointer is a slice's, with its length, and `words` is lent as `mut`, so it overlaps nothing.
        unsafe {
            library::oak_read(
                form as u32,
                text.as_ptr(),
                text.len(),
                words.as_mut_ptr(),
                words.len(),
            )
        }
        .into()
    })?;
    Ok(Reading { words, respelled })
}

/// Writes a list of words: their canonical spelling in the form.
pub fn write(form: Form, words: &[u32]) -> Result<Vec<u8>, Error> {
    let (text, _) = sized(|text: &mut [u8]| {
        // SAFETY: as in `read`.
        unsafe {
            library::oak_write(
                form as u32,
                words.as_ptr(),
                words.len(),
                text.as_mut_ptr(),
                text.len(),
            )
        }
        .into()
    })?;
    Ok(text)
}

/// Converts a whole text to another form, or to its canonical spelling where the forms are the same.
pub fn convert(source: Form, target: Form, text: &[u8]) -> Result<Conversion, Error> {
    let (text, respelled) = sized(|out: &mut [u8]| {
        // SAFETY: as in `read`.
        unsafe {
            library::oak_convert(
                source as u32,
                target as u32,
                text.as_ptr(),
                text.len(),
                out.as_mut_ptr(),
                out.len(),
            )
        }
        .into()
    })?;
    Ok(Conversion { text, respelled })
}

/// Reads a TLX case: the words of its pages, one page after another, and how many elements of all pages were not canonical.
pub fn read_case(case: &[u8]) -> Result<Reading, Error> {
    let (words, respelled) = sized(|words: &mut [u32]| {
        // SAFETY: as in `read`.
        unsafe {
            library::oak_case_read(case.as_ptr(), case.len(), words.as_mut_ptr(), words.len())
        }
    })?;
    Ok(Reading { words, respelled })
}

/// Writes a TLX case with these pages, which are not read.
pub fn write_case(form: Form, pages: &[&[u8]]) -> Result<Vec<u8>, Error> {
    let octets = pages.concat();
    // A length that no `u32` holds is over the limit, and so is the largest `u32`: the library refuses both alike.
    let lengths: Vec<u32> = pages
        .iter()
        .map(|page| page.len().try_into().unwrap_or(u32::MAX))
        .collect();
    let (case, _) = sized(|case: &mut [u8]| {
        // SAFETY: as in `read`.
        unsafe {
            library::oak_case_write(
                form as u32,
                lengths.as_ptr(),
                lengths.len(),
                octets.as_ptr(),
                octets.len(),
                case.as_mut_ptr(),
                case.len(),
            )
        }
        .into()
    })?;
    Ok(case)
}

/// Asks with no room at all, and where that is short asks again with the room that is needed: what was written, and how many elements were
/// respelled.
fn sized<Entry: Clone + Default>(
    ask: impl Fn(&mut [Entry]) -> CaseAnswer,
) -> Result<(Vec<Entry>, usize), Error> {
    let mut entries = Vec::new();
    let mut said = ask(&mut entries);
    if said.answer.number == library::SHORT_ROOM {
        entries.resize(said.answer.count, Entry::default());
        said = ask(&mut entries);
    }
    match Error::of(&said) {
        Some(error) => Err(error),
        None => Ok((entries, said.respelled)),
    }
}
