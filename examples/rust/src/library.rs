//! The library's functions as `include/oakentwirl.h` declares them. Nothing checks these declarations against that file but the sizes of
//! what is given, which are its version 2's.

use std::mem::size_of;

const _: () = assert!(size_of::<Answer>() == 32 && size_of::<ReadAnswer>() == 40);
const _: () = assert!(size_of::<CaseAnswer>() == 48 && size_of::<Comparison>() == 88);
const _: () = assert!(size_of::<Carry>() == 96 && size_of::<Fed>() == 144);

/// The four numbers of an answer.
#[repr(C)]
#[derive(Clone, Copy, Debug)]
pub struct Answer {
    pub number: usize,
    pub element: usize,
    pub place: usize,
    pub count: usize,
}

/// `oak_reading`: the four numbers, and how many elements were not canonical.
#[repr(C)]
pub struct ReadAnswer {
    pub answer: Answer,
    pub respelled: usize,
}

/// The same, and the page that is refused.
#[repr(C)]
pub struct CaseAnswer {
    pub answer: Answer,
    pub respelled: usize,
    pub page: usize,
}

/// What goes from one call to the next of a page that comes in pieces.
#[repr(C)]
#[derive(Clone, Copy, Debug)]
pub struct Carry {
    answer: Answer,
    respelled: usize,
    holds: usize,
    form: u32,
    stopped: u32,
    held: [u8; MOST_HELD],
}

/// The carry for the next call, the five numbers, and how many words were handed out.
#[repr(C)]
pub struct Fed {
    pub carry: Carry,
    pub answer: ReadAnswer,
    pub handed: usize,
}

/// What is said of two texts: the four numbers, which text is refused, the verdict, and where the part begins that is handed back.
#[repr(C)]
pub struct Comparison {
    pub answer: Answer,
    pub text: usize,
    pub same: usize,
    pub first_place: usize,
    pub second_place: usize,
    pub otherwise: usize,
    pub tail_text: usize,
    pub tail_place: usize,
}

impl From<Answer> for CaseAnswer {
    fn from(answer: Answer) -> Self {
        CaseAnswer {
            answer,
            respelled: 0,
            page: 0,
        }
    }
}

impl From<ReadAnswer> for CaseAnswer {
    fn from(read: ReadAnswer) -> Self {
        let ReadAnswer { answer, respelled } = read;
        CaseAnswer {
            answer,
            respelled,
            page: 0,
        }
    }
}

/// `OAK_SHORT_ROOM`.
pub const SHORT_ROOM: usize = 9;

/// `OAK_MOST_HELD`.
pub const MOST_HELD: usize = 39;

/// `OAK_MOST_WORDS`.
pub const MOST_WORDS: usize = 9;

extern "C" {
    pub fn oak_read(
        form: u32,
        text: *const u8,
        text_len: usize,
        words: *mut u32,
        words_len: usize,
    ) -> ReadAnswer;
    pub fn oak_element(
        form: u32,
        text: *const u8,
        text_len: usize,
        at: usize,
        words: *mut u32,
        words_len: usize,
    ) -> ReadAnswer;
    pub fn oak_fresh(form: u32) -> Fed;
    pub fn oak_feed(
        carry: Carry,
        piece: *const u8,
        piece_len: usize,
        ended: u32,
        words: *mut u32,
        words_len: usize,
    ) -> Fed;
    pub fn oak_write(
        form: u32,
        words: *const u32,
        words_len: usize,
        text: *mut u8,
        text_len: usize,
    ) -> Answer;
    pub fn oak_convert(
        source: u32,
        target: u32,
        text: *const u8,
        text_len: usize,
        out: *mut u8,
        out_len: usize,
    ) -> ReadAnswer;
    pub fn oak_compare(
        form: u32,
        first: *const u8,
        first_len: usize,
        second: *const u8,
        second_len: usize,
    ) -> Comparison;
    pub fn oak_case_read(
        tlx: *const u8,
        tlx_len: usize,
        words: *mut u32,
        words_len: usize,
    ) -> CaseAnswer;
    pub fn oak_case_write(
        form: u32,
        lengths: *const u32,
        pages: usize,
        octets: *const u8,
        octets_len: usize,
        tlx: *mut u8,
        tlx_len: usize,
    ) -> Answer;
}
