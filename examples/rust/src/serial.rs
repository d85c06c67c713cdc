//! A page that comes in pieces.

use crate::library::{self, Carry};
use crate::{Error, Form};

/// A page off a serial lead, read piece by piece. An element that is cut in two is finished by the next piece: however a page within
/// 1,048,576 octets is cut, its words are those that [`read`](crate::read) gives of the whole, or, where that is refused, those of the
/// elements before the fault, and the refusal is the same. Of a longer one, the words are those of the whole elements before the piece that
/// passes the limit, unless a fault comes first.
///
/// ```no_run
/// use oakentwirl::{Form, Serial};
///
/// let mut page = Serial::new(Form::Eight);
/// assert_eq!(page.feed(b"caf\xC2"), Ok(&[0x63, 0x61, 0x66][..]));
/// assert_eq!(page.so_far().map(|totals| totals.elements), Ok(3));
/// assert_eq!(page.feed(b"e"), Ok(&[0xE9][..]));
/// assert_eq!(page.end().map(|totals| totals.elements), Ok(4));
/// ```
#[derive(Clone, Debug)]
pub struct Serial {
    carry: Carry,
    words: Vec<u32>,
    handed: usize,
    so_far: Result<Totals, Error>,
}

/// What a page has from its start on: so far, or up to its end.
#[derive(Clone, Copy, Debug, Default, PartialEq, Eq)]
pub struct Totals {
    /// How many elements.
    pub elements: usize,
    /// How many octets, those of an unfinished element too.
    pub octets: usize,
    /// How many words were handed out.
    pub words: usize,
    /// How many elements did not stand in their form's canonical spelling.
    pub respelled: usize,
}

impl Serial {
    /// A fresh page of the form, of which nothing is read.
    pub fn new(form: Form) -> Serial {
        // SAFETY: it takes a number, and lends nothing.
        let fresh = unsafe { library::oak_fresh(form as u32) };
        Serial {
            carry: fresh.carry,
            words: Vec::new(),
            handed: 0,
            so_far: Ok(Totals::default()),
        }
    }

    /// Takes the next piece, and hands out the words of the elements that it finishes. At a fault the words before it are
    /// handed out too: [`words`](Serial::words) has them. A piece that passes the limit is not read, and an element that waited is given
    /// up. From then on every call is refused as that one was, and hands out nothing.
    pub fn feed(&mut self, piece: &[u8]) -> Result<&[u32], Error> {
        self.call(piece, false)?;
        Ok(self.words())
    }

    /// The words that the last call handed out.
    pub fn words(&self) -> &[u32] {
        &self.words[..self.handed]
    }

    /// What the page has so far, or why it is refused.
    pub fn so_far(&self) -> Result<Totals, Error> {
        self.so_far
    }

    /// Ends the page: it is refused if an element is unfinished, or if it was refused before.
    pub fn end(mut self) -> Result<Totals, Error> {
        self.call(b"", true)
    }

    /// One call, with as much room as it can need. What it answers is counted from the page's start.
    fn call(&mut self, piece: &[u8], ended: bool) -> Result<Totals, Error> {
        let room = piece.len() + library::MOST_HELD;
        self.words.resize(self.words.len().max(room), 0);
        // SAFETY: each pointer is a slice's, with its length, and `words` is our own, so it overlaps nothing.
        let fed = unsafe {
            library::oak_feed(
                self.carry,
                piece.as_ptr(),
                piece.len(),
                ended.into(),
                self.words.as_mut_ptr(),
                self.words.len(),
            )
        };
        self.carry = fed.carry;
        self.handed = fed.handed;
        let said = fed.answer.into();
        self.so_far = match Error::of(&said) {
            Some(error) => Err(error),
            None => Ok(Totals {
                elements: said.answer.element,
                octets: said.answer.place,
                words: said.answer.count,
                respelled: said.respelled,
            }),
        };
        self.so_far
    }
}
