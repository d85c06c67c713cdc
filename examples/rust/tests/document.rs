//! The documents' own examples, through the safe functions.

use oakentwirl::{
    compare, convert, element_at, read, read_case, write, write_case, CompareError, Compared,
    Conversion, Error, Form, Reading, Refusal, Serial, Totals, Which,
};

/// "form 1, two pages"
const CASE: &[u8] = b"TLX\0\x01\x01\0\x02\0\x01\0\x02A\xC2e";

fn error(refusal: Refusal, element: usize, place: usize, count: usize, page: usize) -> Error {
    Error {
        refusal,
        element,
        place,
        count,
        page,
    }
}

fn reading(words: &[u32], respelled: usize) -> Result<Reading, Error> {
    let words = words.to_vec();
    Ok(Reading { words, respelled })
}

fn conversion(text: &[u8], respelled: usize) -> Result<Conversion, Error> {
    let text = text.to_vec();
    Ok(Conversion { text, respelled })
}

#[test]
fn a_text_is_read_and_written() {
    let words = [67_136_769, 4, 16_777_281];
    assert_eq!(read(Form::Basic, b"\x9B4m\xCCA"), reading(&words, 0));
    assert_eq!(write(Form::Basic, &words), Ok(b"\x9B4m\xCCA".to_vec()));
}

#[test]
fn nothing_is_read_as_nothing() {
    assert_eq!(read(Form::Eight, b""), reading(&[], 0));
    assert_eq!(write(Form::Seven, &[]), Ok(vec![]));
}

#[test]
fn a_text_is_converted() {
    let seven = convert(Form::Eight, Form::Seven, b"\xC2e");
    assert_eq!(seven, conversion(b"\x19Be", 0));
    let canonical = convert(Form::Basic, Form::Basic, b"\x9B0;m");
    assert_eq!(canonical, conversion(b"\x9B;m", 1));
}

/// Document 02, No. 2: Annex A codes small g with cedilla as C2 67.
#[test]
fn a_latvian_small_g_is_read_and_written() {
    let spelt: [(Form, &[u8]); 3] = [
        (Form::Eight, b"\xC2g"),
        (Form::Seven, b"\x19Bg"),
        (Form::Basic, b"\xC2g"),
    ];
    for (form, text) in spelt {
        assert_eq!(read(form, text), reading(&[0x0123], 0));
        assert_eq!(write(form, &[0x0123]), Ok(text.to_vec()));
        let acute = error(Refusal::NotHeld, 0, 0, 0, 0);
        assert_eq!(write(form, &[0x01F5]), Err(acute));
    }
    let cedilla = error(Refusal::NotAFollower, 0, 0, 1, 0);
    assert_eq!(read(Form::Eight, b"\xCBg"), Err(cedilla));
}

#[test]
fn a_refusal_says_where() {
    let follower = read(Form::Eight, b"A\xC2b").unwrap_err();
    assert_eq!(follower, error(Refusal::NotAFollower, 1, 1, 2, 0));
    assert_eq!(follower.at(), Some(2));
    let lacking = convert(Form::Basic, Form::Eight, b"A\xCCA").unwrap_err();
    assert_eq!(lacking, error(Refusal::NotHeld, 1, 1, 0, 0));
    assert_eq!(lacking.at(), Some(1));
    let long = read(Form::Eight, &vec![b'A'; 1_048_577]).unwrap_err();
    assert_eq!(long, error(Refusal::TooLong, 0, 0, 0, 0));
    assert_eq!(long.at(), None);
}

#[test]
fn a_case_is_read_and_written() {
    assert_eq!(read_case(CASE), reading(&[0x41, 0xE9], 0));
    let pages: [&[u8]; 2] = [b"A", b"\xC2e"];
    assert_eq!(write_case(Form::Eight, &pages), Ok(CASE.to_vec()));
}

#[test]
fn a_refused_case_names_the_page() {
    let mut case = CASE.to_vec();
    case[14] = b'b';
    let refused = error(Refusal::NotAFollower, 0, 0, 1, 1);
    assert_eq!(read_case(&case), Err(refused));
    assert_eq!(read_case(b"TLX"), Err(error(Refusal::NoCase, 0, 0, 0, 0)));
    let long = vec![b'A'; 65_536];
    let size = error(Refusal::Size, 0, 0, 0, 0);
    assert_eq!(write_case(Form::Eight, &[&long]), Err(size));
}

#[test]
fn a_page_in_pieces_is_read_as_the_whole() {
    let text = b"A\xCC\xC2e\x9B0;m\xA6B";
    let whole = read(Form::Basic, text).unwrap().words;
    for size in 1..=text.len() {
        let mut page = Serial::new(Form::Basic);
        let mut words = Vec::new();
        for piece in text.chunks(size) {
            words.extend_from_slice(page.feed(piece).unwrap());
        }
        assert_eq!(words, whole);
        let totals = Totals {
            elements: 5,
            octets: text.len(),
            words: 7,
            respelled: 1,
        };
        assert_eq!(page.end(), Ok(totals));
    }
}

#[test]
fn a_fault_keeps_the_words_before_it() {
    let mut page = Serial::new(Form::Eight);
    assert_eq!(page.feed(b"A\xC2"), Ok(&[0x41][..]));
    let follower = error(Refusal::NotAFollower, 2, 3, 4, 0);
    assert_eq!(page.feed(b"e\xC2b"), Err(follower));
    assert_eq!(page.words(), [0xE9]);
    assert_eq!(page.feed(b"A"), Err(follower));
    assert_eq!(page.words(), []);
    assert_eq!(page.end(), Err(follower));
}

#[test]
fn a_page_may_end_inside_an_element_or_pass_the_limit() {
    let mut open = Serial::new(Form::Seven);
    assert_eq!(open.feed(b"A\x19B"), Ok(&[0x41][..]));
    assert_eq!(open.end(), Err(error(Refusal::CutShort, 1, 1, 3, 0)));
    let mut long = Serial::new(Form::Eight);
    assert_eq!(
        long.feed(&vec![b'A'; 1_048_576]).map(<[u32]>::len),
        Ok(1_048_576)
    );
    assert_eq!(long.feed(b""), Ok(&[][..]));
    assert_eq!(long.feed(b"A"), Err(error(Refusal::TooLong, 0, 0, 0, 0)));
    assert_eq!(Serial::new(Form::Basic).end(), Ok(Totals::default()));
}

#[test]
fn a_page_goes_on_from_before_the_piece_that_passed_the_limit() {
    let mut page = Serial::new(Form::Eight);
    page.feed(&vec![b'A'; 1_048_574]).unwrap();
    assert_eq!(page.feed(b"\xC2"), Ok(&[][..]));
    let (mut smaller, ended) = (page.clone(), page.clone());
    let long = error(Refusal::TooLong, 0, 0, 0, 0);
    assert_eq!(page.feed(b"eA"), Err(long));
    assert_eq!(page.words(), []);
    assert_eq!(page.end(), Err(long));
    assert_eq!(smaller.feed(b"e"), Ok(&[0xE9][..]));
    let totals = Totals {
        elements: 1_048_575,
        octets: 1_048_576,
        words: 1_048_575,
        respelled: 0,
    };
    assert_eq!(smaller.end(), Ok(totals));
    let cut = error(Refusal::CutShort, 1_048_574, 1_048_574, 1_048_575, 0);
    assert_eq!(ended.end(), Err(cut));
}

/// Document 02, No. 4: the meanings are compared, and not the octets.
#[test]
fn texts_that_mean_the_same_say_how_many_elements_are_spelled_otherwise() {
    let same = |elements, otherwise| {
        Ok(Compared::Same {
            elements,
            otherwise,
        })
    };
    let text = b"#1 caf\xC2e \xCC#\x9B0;m";
    assert_eq!(compare(Form::Basic, text, &text.clone()), same(10, 0));
    assert_eq!(compare(Form::Basic, text, text), same(10, 0));
    let respelt = convert(Form::Basic, Form::Basic, text).unwrap().text;
    assert_eq!(respelt, b"\xA61 caf\xC2e \xCC\xA6\x9B;m");
    assert_eq!(compare(Form::Basic, text, &respelt), same(10, 3));
    assert_eq!(compare(Form::Basic, &respelt, text), same(10, 3));
    assert_eq!(compare(Form::Eight, b"2^8", b"2\xC3 8"), same(3, 1));
    for form in [Form::Eight, Form::Seven, Form::Basic] {
        assert_eq!(compare(form, b"", b""), same(0, 0));
    }
}

#[test]
fn texts_that_differ_say_where_in_each() {
    let (first, second) = (b"2^8 caf\xC2e, two", b"2\xC3 8 cafe, two");
    let differ = Compared::Differ {
        element: 7,
        first_place: 7,
        second_place: 8,
        tail: b"\xC2e, two",
    };
    assert_eq!(compare(Form::Eight, first, second), Ok(differ));
    let exchanged = Compared::Differ {
        element: 7,
        first_place: 8,
        second_place: 7,
        tail: b"e, two",
    };
    assert_eq!(compare(Form::Eight, second, first), Ok(exchanged));
    let underlined = Compared::Differ {
        element: 1,
        first_place: 1,
        second_place: 1,
        tail: b" B",
    };
    assert_eq!(compare(Form::Basic, b"A B", b"A\xCC B"), Ok(underlined));
}

#[test]
fn a_text_that_goes_on_lends_what_it_has_more() {
    let (short, long) = (b"2^8", b"2\xC3 8\xC2e");
    let second = Compared::SecondGoesOn {
        element: 3,
        place: 4,
        tail: b"\xC2e",
    };
    assert_eq!(compare(Form::Eight, short, long), Ok(second));
    let first = Compared::FirstGoesOn {
        element: 3,
        place: 4,
        tail: b"\xC2e",
    };
    assert_eq!(compare(Form::Eight, long, short), Ok(first));
    let all = Compared::SecondGoesOn {
        element: 0,
        place: 0,
        tail: &long[..],
    };
    assert_eq!(compare(Form::Eight, b"", long), Ok(all));
}

#[test]
fn the_tail_is_a_part_of_the_text_that_it_is_of() {
    let (first, second, longer) = (
        b"A\xC2eB".to_vec(),
        b"A\xC2aB".to_vec(),
        b"A\xC2eBC".to_vec(),
    );
    let tail = |one, other| match compare(Form::Eight, one, other) {
        Ok(Compared::Differ { tail, .. })
        | Ok(Compared::FirstGoesOn { tail, .. })
        | Ok(Compared::SecondGoesOn { tail, .. }) => tail,
        other => panic!("there is no tail: {other:?}"),
    };
    assert!(std::ptr::eq(tail(&first, &second), &first[1..]));
    assert!(std::ptr::eq(tail(&second, &first), &second[1..]));
    assert!(std::ptr::eq(tail(&first, &longer), &longer[4..]));
    assert!(std::ptr::eq(tail(&longer, &first), &longer[4..]));
}

#[test]
fn a_refused_comparison_names_the_text() {
    let refused = |which, error| Err(CompareError { which, error });
    let (good, follower, high) = (b"A", b"A\xC2b", b"AB\x80");
    let (three, one) = (
        error(Refusal::NotAFollower, 1, 1, 2, 0),
        error(Refusal::BeginsNothing, 2, 2, 2, 0),
    );
    let eight = |first, second| compare(Form::Eight, first, second);
    assert_eq!(eight(follower, good), refused(Which::First, three));
    assert_eq!(eight(good, follower), refused(Which::Second, three));
    assert_eq!(eight(high, follower), refused(Which::First, one));
    assert_eq!(eight(follower, high), refused(Which::First, three));
    let said = eight(good, follower).unwrap_err().to_string();
    assert_eq!(
        said,
        "the second text: refused with 3: what stands at place 2, in element 1, may not follow the mark or the underline before it"
    );
    let cut = error(Refusal::CutShort, 1, 1, 3, 0);
    let seven = compare(Form::Seven, b"A\x19B", b"B");
    assert_eq!(seven, refused(Which::First, cut));
}

/// A text over the limit is refused before either is read.
#[test]
fn a_text_that_is_too_long_is_not_compared() {
    let (most, over) = (vec![b'A'; 1_048_576], vec![b'A'; 1_048_577]);
    let long = error(Refusal::TooLong, 0, 0, 0, 0);
    let refused = |which| Err(CompareError { which, error: long });
    let eight = |first, second| compare(Form::Eight, first, second);
    assert_eq!(eight(&over, b"\xC2b"), refused(Which::First));
    assert_eq!(eight(b"\xC2b", &over), refused(Which::Second));
    assert_eq!(eight(&over, &over), refused(Which::First));
    let same = Compared::Same {
        elements: 1_048_576,
        otherwise: 0,
    };
    assert_eq!(eight(&most, &most.clone()), Ok(same));
}

/// Document 02, No. 5: how many elements did not stand in their form's canonical spelling.
#[test]
fn a_reading_says_how_many_elements_were_not_canonical() {
    let respelled = |form, text| read(form, text).map(|read| read.respelled);
    for accent in [b"`", b"^", b"~"] {
        assert_eq!(respelled(Form::Eight, accent), Ok(0));
    }
    assert_eq!(respelled(Form::Eight, b"\xC1 \xC2 \xC3 \xC4 \xC5 "), Ok(3));
    assert_eq!(respelled(Form::Seven, b"\x19A \x19B \x19C \x19D "), Ok(3));
    // Form 3 has no octet for these accents, and so the pair is canonical there.
    assert_eq!(respelled(Form::Basic, b"\xC1 \xC2 \xC3 \xC4 "), Ok(0));
    assert_eq!(respelled(Form::Basic, b"#$\xA6\xA8\xA4"), Ok(2));
    assert_eq!(respelled(Form::Eight, b"#$"), Ok(0));
    // After CC the character is what counts.
    let underlined = b"\xCC#\xCC\xA6\xCC\xC1 \xCCA";
    assert_eq!(respelled(Form::Basic, underlined), Ok(1));
    // A 0 that is written out, and a leading zero; a zero inside or at the end of a value is its own.
    let sequences = b"\x9Bm\x9B;m\x9B0m\x9B;0m\x9B04m\x9B4;007m\x9B10;100m";
    assert_eq!(respelled(Form::Basic, sequences), Ok(4));
}

/// Document 02, No. 6: after 9B, A1 to FE count as 21 to 7E.
#[test]
fn sequences_with_the_top_bit_set() {
    // Outside a sequence B4 and ED mean what they meant.
    let lower = b"\x9B4;12!m\xB4\xED\x9B L";
    let upper = b"\x9B\xB4\xBB\xB1\xB2\xA1\xED\xB4\xED\x9B \xCC";
    let mixed = b"\x9B4\xBB1\xB2!\xED\xB4\xED\x9B L";
    let words = [69_299_458, 4, 12, 0xD7, 0x166, 69_225_473, 0];
    for (text, respelled) in [(&lower[..], 0), (&upper[..], 2), (&mixed[..], 1)] {
        assert_eq!(read(Form::Basic, text), reading(&words, respelled));
        let respelt = convert(Form::Basic, Form::Basic, text);
        assert_eq!(respelt, conversion(lower, respelled));
    }
    // A0, FF and a second 9B are in neither half, and 1B is not 9B.
    let refused = |refusal, count| Err(error(refusal, 0, 0, count, 0));
    for text in [b"\x9B\xA0m", b"\x9B\xFFm", b"\x9B\x9Bm"] {
        assert_eq!(read(Form::Basic, text), refused(Refusal::NotAllowed, 1));
    }
    let escape = read(Form::Basic, b"\x1B\xB4\xED");
    assert_eq!(escape, refused(Refusal::Escape, 0));
}

#[test]
fn the_number_adds_up() {
    let (one, other) = (b"#\xC2e\x9B0m", b"$A\xA6#");
    let joined = [&one[..], &other[..]].concat();
    let respelled = |text: &[u8]| read(Form::Basic, text).unwrap().respelled;
    assert_eq!((respelled(one), respelled(other)), (2, 2));
    assert_eq!(respelled(&joined), 4);
    let case = write_case(Form::Basic, &[one, b"", other]).unwrap();
    assert_eq!(read_case(&case).map(|read| read.respelled), Ok(4));
}

/// "elements not canonical in the source form"
#[test]
fn a_conversion_counts_by_the_source_form() {
    // Pairs in form 3, where they are canonical; in form 1 the characters have octets of their own.
    let accents = convert(Form::Basic, Form::Eight, b"\xC1 \xC3 \xC4 ");
    assert_eq!(accents, conversion(b"`^~", 0));
    let back = convert(Form::Eight, Form::Basic, b"`^~");
    assert_eq!(back, conversion(b"\xC1 \xC3 \xC4 ", 0));
    // The same octets as form 1's are respelled, to every form.
    let pairs = b"\xC1 \xC3 \xC4 ";
    let to = |target| convert(Form::Eight, target, pairs);
    assert_eq!(to(Form::Eight), conversion(b"`^~", 3));
    assert_eq!(to(Form::Seven), conversion(b"`^~", 3));
    assert_eq!(to(Form::Basic), conversion(pairs, 3));
    // Form 1 has # and $ as they are, and form 3 writes them A6 and A4.
    let signs = convert(Form::Eight, Form::Basic, b"#$");
    assert_eq!(signs, conversion(b"\xA6\xA4", 0));
}

#[test]
fn a_page_in_pieces_says_how_many_so_far() {
    let mut page = Serial::new(Form::Basic);
    assert_eq!(page.so_far(), Ok(Totals::default()));
    let so_far = |elements, octets, words, respelled| {
        Ok(Totals {
            elements,
            octets,
            words,
            respelled,
        })
    };
    page.feed(b"#\xCC").unwrap();
    assert_eq!(page.so_far(), so_far(1, 2, 1, 1));
    page.feed(b"$\x9B0").unwrap();
    assert_eq!(page.so_far(), so_far(2, 5, 2, 2));
    page.feed(b"m").unwrap();
    assert_eq!(page.so_far(), so_far(3, 6, 4, 3));
    assert_eq!(page.clone().end(), so_far(3, 6, 4, 3));
    let escape = error(Refusal::Escape, 4, 7, 7, 0);
    assert_eq!(page.feed(b"A\x1B"), Err(escape));
    assert_eq!(page.so_far(), Err(escape));
}

#[test]
fn an_element_is_read_by_itself() {
    let text = b"A#\xCC\xC2e\x9B0;12mB";
    let mut found = Vec::new();
    let mut at = 0;
    while let Some(element) = element_at(Form::Basic, text, at).unwrap() {
        found.push((at, element.words().to_vec(), element.canonical));
        at = element.after;
    }
    let expected = [
        (0, vec![0x41], true),
        (1, vec![0x23], false),
        (2, vec![0x0100_00E9], true),
        (5, vec![67_136_770, 0, 12], false),
        (11, vec![0x42], true),
    ];
    assert_eq!(found, expected);
    assert_eq!(at, text.len());
    assert_eq!(element_at(Form::Basic, text, usize::MAX), Ok(None));
    assert_eq!(element_at(Form::Seven, b"", 0), Ok(None));
    let most = element_at(Form::Basic, b"\x9B1;2;3;4;5;6;7;8m", 0).unwrap();
    assert_eq!(most.map(|element| element.words().len()), Some(9));
}

/// Its places are of the whole text, and no element is counted before it.
#[test]
fn a_refused_element_says_where() {
    let follower = error(Refusal::NotAFollower, 0, 2, 3, 0);
    assert_eq!(element_at(Form::Eight, b"AB\xC2b", 2), Err(follower));
    let cut = error(Refusal::CutShort, 0, 1, 3, 0);
    assert_eq!(element_at(Form::Seven, b"A\x19B", 1), Err(cut));
    assert_eq!(
        element_at(Form::Seven, b"A\x19B", 2).map(|element| element.is_some()),
        Ok(true)
    );
    let long = error(Refusal::TooLong, 0, 0, 0, 0);
    let over = vec![b'A'; 1_048_577];
    assert_eq!(element_at(Form::Eight, &over, 0), Err(long));
}
