//! One element of a text.

use crate::library::{self, MOST_WORDS};
use crate::{Error, Form};

/// An element that stands in a text: [`element_at`] reads it.
#[derive(Clone, Copy, Debug, PartialEq, Eq)]
pub struct Element {
    words: [u32; MOST_WORDS],
    count: usize,
    /// The place after it, where the next one begins.
    pub after: usize,
    /// Whether it stood in its form's canonical spelling.
    pub canonical: bool,
}

impl Element {
    /// Its words: one, or of a control sequence the first word and the values.
    pub fn words(&self) -> &[u32] {
        &self.words[..self.count]
    }
}

/// Reads the one element that begins at a place of a text, or gives `None` at the end of the text and past it. What stands before it is not
/// looked at, so that a refusal has 0 as its `element`; its places are of the whole text.
///
/// ```no_run
/// use oakentwirl::{convert, element_at, Form};
///
/// // Each element that is not canonical, with its place and its canonical spelling.
/// let (text, form) = (b"2\xC3 8 caf\xC2e", Form::Eight);
/// let mut found = Vec::new();
/// let mut at = 0;
/// while let Some(element) = element_at(form, text, at)? {
///     if !element.canonical {
///         found.push((at, convert(form, form, &text[at..element.after])?.text));
///     }
///     at = element.after;
/// }
/// assert_eq!(found, [(1, b"^".to_vec())]);
/// # Ok::<(), oakentwirl::Error>(())
/// ```
pub fn element_at(form: Form, text: &[u8], at: usize) -> Result<Option<Element>, Error> {
    let mut words = [0; MOST_WORDS];
    // SAFETY: each pointer is a slice's, with its length, and `words` is our own, so it overlaps nothing.
    let said = unsafe {
        library::oak_element(
            form as u32,
            text.as_ptr(),
            text.len(),
            at,
            words.as_mut_ptr(),
            words.len(),
        )
    }
    .into();
    if let Some(error) = Error::of(&said) {
        return Err(error);
    }
    let is_one = said.answer.element == 1;
    Ok(is_one.then_some(Element {
        words,
        count: said.answer.count,
        after: said.answer.place,
        canonical: said.respelled == 0,
    }))
}
