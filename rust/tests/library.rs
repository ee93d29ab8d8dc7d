//! What the crate makes of the library's answers. The library itself is tested in tests/ of the repository.

use shaftglimmer::bytes::{read_page, read_word};
use shaftglimmer::{
    check, decode, decode_majority, decode_nearest, decode_two, encode, encode_with, extract, extract_with, fill,
    fill_with, looked, looked_with, parse_line, parse_line_with, parse_page, restore, restore_with, write_page,
    write_page_with, Outcome, Outcomes, Refusal, Session, Shape, Way, LINE_MOST,
};
use std::iter::repeat;

/// Page 1 with marks 3 and 5, of shape (3, 2, 8).
const WORD: [u32; 9] = [5, 2, 7, 3, 1, 2, 6, 3, 5];

fn small() -> Shape {
    Shape::new(3, 2, 8).expect("a lawful shape")
}

/// Every lawful order and number of directions.
fn shapes() -> impl Iterator<Item = Shape> {
    (0..40).flat_map(|q| (0..10).filter_map(move |n| Shape::new(q, n, 32).ok()))
}

#[test]
fn lengths_and_their_limits() {
    assert_eq!(shapes().count(), 61);
    for shape in shapes() {
        let (q, n) = (shape.q() as usize, shape.n() as usize);
        assert_eq!(shape.word_length(), q * q);
        assert_eq!(shape.data_length(), (q - 1) * (q + 1 - n));
        assert_eq!(shape.most_marks() + 2, shape.data_length());
        assert_eq!(shape.scratch_length(), (n * q - n + 1) * ((q * q + 31) / 32));
    }
    assert_eq!(shapes().map(|shape| shape.word_length()).max(), Some(Shape::WORD_MOST));
    assert_eq!(shapes().map(|shape| shape.data_length()).max(), Some(Shape::DATA_MOST));
    assert_eq!(shapes().map(|shape| shape.scratch_length()).max(), Some(Shape::SCRATCH_MOST));
}

#[test]
fn shapes_are_lawful() {
    for (q, n, b) in [(9, 2, 8), (3, 4, 8), (31, 9, 8), (3, 2, 0), (3, 2, 33), (u32::MAX, u32::MAX, u32::MAX)] {
        assert_eq!(Shape::new(q, n, b), Err(Refusal::Shape));
    }
    assert_eq!(Shape::with_slopes(3, 3, 8, [1, 1, 0, 0, 0, 0, 0]), Err(Refusal::Slope));
    assert_eq!(Shape::with_slopes(3, 2, 8, [3, 1, 0, 0, 0, 0, 0]), Err(Refusal::Slope));
    let shape = Shape::with_slopes(3, 2, 8, [2, 2, 9, 9, 9, 9, 9]).expect("only the first slope counts");
    assert_eq!(shape.to_values(), [3, 2, 8, 2, 2, 9, 9, 9, 9, 9]);
    assert_eq!(Shape::from_values(shape.to_values()), Ok(shape));
    assert_eq!(small().slopes(), &Shape::STANDARD);
}

#[test]
fn words() {
    let shape = Shape::new(3, 3, 3).expect("a lawful shape");
    let stored = [3, 6, 5, 5, 3, 6, 6, 5, 3];
    assert_eq!(encode(&shape, &[5, 3]), Ok(stored.to_vec()));
    assert_eq!(extract(&shape, &stored), Ok(vec![5, 3]));
    let damaged = |error: [u32; 9]| std::array::from_fn::<u32, 9, _>(|j| stored[j] ^ error[j]);
    let clean = damaged([0, 0, 0, 7, 1, 0, 0, 0, 0]);
    let hidden = damaged([0, 0, 0, 7, 7, 0, 0, 0, 0]);
    let single = damaged([0, 0, 0, 0, 0, 2, 0, 0, 0]);
    let read = |by: fn(&Shape, &mut [u32]) -> Result<u32, Refusal>, mut word: [u32; 9]| (by(&shape, &mut word), word);
    assert_eq!(read(decode, clean), (Ok(2), stored));
    assert_eq!(read(decode, hidden), (Err(Refusal::Uncorrectable), hidden));
    assert_eq!(read(decode_two, hidden), (Ok(2), stored));
    assert_eq!(read(decode_nearest, hidden), (Ok(2), stored));
    assert_eq!(read(decode_majority, single), (Ok(1), stored));
    assert_eq!(read(decode_majority, hidden), (Err(Refusal::NoMajority), hidden));
    assert_eq!(check(&shape, &clean, &stored), Ok(true));
    assert_eq!(check(&shape, &hidden, &stored), Ok(false));
    assert_eq!(looked(&shape, &stored), Ok(vec![1; 9]));
    let mut dead = hidden;
    assert_eq!((fill(&shape, &[3, 4], &mut dead), dead), (Ok(2), stored));
    assert_eq!(fill(&shape, &[4, 3], &mut dead), Err(Refusal::Places));
    let with = |places: &[u32], mut word: [u32; 9]| (restore(&shape, places, &mut word), word);
    assert_eq!(with(&[3], hidden), (Ok(2), stored));
    assert_eq!(with(&[0, 8], hidden), (Err(Refusal::Far), hidden));
    assert_eq!(with(&[3, 3], hidden), (Err(Refusal::Places), hidden));
    assert_eq!(with(&[0, 1, 2, 3, 4, 5, 6, 7, 8], hidden), (Err(Refusal::Ambiguous), hidden));
    assert_eq!(decode_two(&small(), &mut [0; 9]), Err(Refusal::Directions));
}

#[test]
fn pages() {
    let shape = small();
    let data = [1, 2, 3, 5];
    let page = parse_page(&shape, &data).expect("a page");
    assert_eq!((page.number(), page.marks().len()), (1, 2));
    assert_eq!(page.into_iter().rev().collect::<Vec<u8>>(), [5, 3]);
    assert_eq!(parse_page(&shape, &[1, 3, 0, 0]), Err(Refusal::Count));
    assert_eq!(parse_page(&shape, &[0, 1, 4, 9]), Err(Refusal::Tail));
    assert_eq!(write_page(&shape, 1, page), Ok(data.to_vec()));
    assert_eq!(write_page(&shape, 1, repeat(1)), Err(Refusal::Count));
    assert_eq!(write_page(&shape, 1024, []), Err(Refusal::Page));
    let mut lent = [7; 4];
    assert_eq!(write_page_with(&shape, 1, &[256], &mut lent), Err(Refusal::Function));
    assert_eq!((write_page_with(&shape, 0, &[0], &mut lent), lent), (Ok(()), [0, 1, 0, 0]));
}

#[test]
fn a_session() {
    let mut session = Session::fresh(&small()).expect("a session");
    assert_eq!(session.arrive(Way::Clean, &mut WORD.clone()), Outcome::Taken { page: 1, changed: 0 });
    let mut damaged = WORD;
    damaged[0] ^= 9;
    assert_eq!(session.arrive(Way::Vote, &mut damaged), Outcome::Again { page: 1, changed: 1 });
    assert_eq!(damaged, WORD);
    assert_eq!(session.arrive(Way::Two, &mut damaged), Outcome::Refused(Refusal::Directions));
    assert_eq!(session.arrive(Way::Clean, &mut [0; 8]), Outcome::Refused(Refusal::Length));
    assert_eq!((session.pages(), session.lowest(), session.shape()), (1, 0, &small()));
    assert!(session.has_taken(1) && !session.has_taken(0) && !session.has_taken(u32::MAX));
    assert_eq!(session.missing().count(), 1023);
    assert_eq!(session.missing().take(2).collect::<Vec<u32>>(), [0, 2]);
    assert_eq!((session.count(3), session.count(4), session.count(256)), (Ok(1), Ok(0), Err(Refusal::Function)));
    assert_eq!((session.calls()[5], session.calls().iter().sum::<u32>()), (1, 2));
    assert_eq!(session.tally().collect::<Vec<_>>(), [(3, 1), (5, 1)]);
    assert_eq!(session.bill(&[1; 256]), Ok(1));
    let coverage = session.cover().expect("a coverage");
    assert_eq!((coverage.functions(), coverage.iter().collect::<Vec<u8>>()), (2, vec![3, 5]));
    assert_eq!(coverage.as_bytes().iter().filter(|&&byte| byte == 1).count(), 2);
}

#[test]
fn a_bundle() {
    let mut session = Session::fresh(&small()).expect("a session");
    let mut words = [WORD, [1, 0, 0, 0, 1, 0, 0, 0, 0], WORD].concat();
    let outcomes = session.arrive_all(Way::Clean, &mut words).expect("a bundle");
    let expected = [
        Outcome::Taken { page: 1, changed: 0 },
        Outcome::Refused(Refusal::Uncorrectable),
        Outcome::Again { page: 1, changed: 0 },
    ];
    assert_eq!(outcomes.iter().collect::<Vec<Outcome>>(), expected);
    assert_eq!((outcomes.len(), outcomes.is_empty()), (3, false));
    assert_eq!((outcomes.get(2), outcomes.get(3)), (Some(expected[2]), None));
    assert_eq!(outcomes.as_values()[..4], [0, 1, 0, 2]);
    assert_eq!(session.arrive_all(Way::Clean, &mut words[1..]), Err(Refusal::Length));
    assert_eq!(session.arrive_all(Way::Clean, &mut WORD.repeat(Outcomes::MOST + 1)), Err(Refusal::Length));
    assert_eq!(session.arrive_all(Way::Two, &mut words), Err(Refusal::Directions));
}

#[test]
fn saved_sessions() {
    let mut session = Session::fresh(&small()).expect("a session");
    session.arrive(Way::Clean, &mut WORD.clone());
    let saved = session.to_values();
    assert_eq!(saved[..12], [3, 2, 8, 0, 1, 2, 3, 4, 5, 6, 1, 0]);
    assert_eq!((saved[12 + 1], saved[1036 + 3]), (1, 1));
    assert_eq!(Session::from_values(&saved), Ok(session.clone()));
    let changed = |place: usize, value: u32| {
        let mut values = saved;
        values[place] = value;
        Session::from_values(&values)
    };
    let bytes = session.to_bytes();
    assert_eq!((bytes[..4].to_vec(), bytes.len()), (vec![3, 0, 0, 0], Session::BYTES));
    assert_eq!(bytes.to_vec(), saved.map(u32::to_le_bytes).concat());
    assert_eq!(Session::from_bytes(&bytes), Ok(session.clone()));
    for length in [0, 1, Session::BYTES - 4, Session::BYTES - 1, Session::BYTES + 1, 2 * Session::BYTES] {
        assert_eq!(Session::from_bytes(&bytes.repeat(2)[..length]), Err(Refusal::Length));
    }
    let wrong = |place: usize, byte: u8| {
        let mut bytes = bytes;
        bytes[place] = byte;
        Session::from_bytes(&bytes)
    };
    assert_eq!(
        [(0, 9), (12, 3), (44, 1)].map(|(place, byte)| wrong(place, byte).err()),
        [Some(Refusal::Shape), Some(Refusal::Slope), Some(Refusal::Figures)]
    );
    assert_eq!(wrong(4 * 1036 + 4 * 9 + 3, 0x80).map(|session| session.calls()[9]), Ok(0x8000_0000));
    assert_eq!(changed(0, 9), Err(Refusal::Shape));
    assert_eq!(changed(3, 3), Err(Refusal::Slope));
    assert_eq!(changed(11, 1), Err(Refusal::Figures));
    assert_eq!(changed(12, 1), Err(Refusal::Figures));
    let yes = changed(12 + 1, 77).expect("any number but 0 is a yes");
    assert!(yes.has_taken(1) && yes != session);
    // With the two calls that are there the sum is 2^64 - 1, the most there can be.
    let full = changed(1036 + 7, u32::MAX).expect("any counts are a session's");
    assert_eq!(full.bill(&[u32::MAX; 256]), Ok(u64::MAX / 1000 + 1));
}

#[test]
fn a_bill_too_large() {
    let mut values = Session::fresh(&small()).expect("a session").to_values();
    values[1036 + 1..].fill(u32::MAX);
    let session = Session::from_values(&values).expect("any counts are a session's");
    assert_eq!(session.bill(&[u32::MAX; 256]), Err(Refusal::Bill));
    assert_eq!(session.cover().map(|coverage| coverage.functions()), Ok(255));
}

#[test]
fn lines() {
    let right: [(&str, &[u32]); 4] =
        [("0", &[0]), ("5 2 7", &[5, 2, 7]), ("4294967295", &[u32::MAX]), ("10 0 10", &[10, 0, 10])];
    for (line, values) in right {
        assert_eq!(parse_line(line.as_bytes()), Ok(values.to_vec()));
    }
    for wrong in [
        "", " ", "1 ", " 1", "1  2", "01", "00", "4294967296", "99999999999", "1\t2", "1\r", "1\n", "x", "+1", "-1",
        "1,2",
    ] {
        assert_eq!(parse_line(wrong.as_bytes()), Err(Refusal::Syntax), "{wrong:?}");
    }
    for many in [1023, 1024, 1025, 5000] {
        let (line, mut lent) = (vec!["7"; many].join(" "), [9; LINE_MOST]);
        assert_eq!(parse_line(line.as_bytes()), Ok(vec![7; many.min(LINE_MOST)]));
        assert_eq!(parse_line_with(line.as_bytes(), &mut lent).map(|values| values.len()), Ok(many.min(LINE_MOST)));
    }
}

#[test]
fn ways_and_outcomes_by_number() {
    for (number, way) in [Way::Clean, Way::Vote, Way::Two].into_iter().enumerate() {
        assert_eq!((way.number() as usize, Way::from_number(number as u32)), (number, Some(way)));
    }
    assert_eq!(Way::from_number(3), None);
    assert_eq!(Outcome::Taken { page: 7, changed: 2 }.to_string(), "taken 7 2");
    assert_eq!(Outcome::Refused(Refusal::Far).to_values(), [2, 20, 0]);
}

/// Shapes small enough for lists of every length up to twice a word's.
fn small_shapes() -> [Shape; 3] {
    [(3, 2, 8), (3, 3, 1), (5, 4, 32)].map(|(q, n, b)| Shape::new(q, n, b).expect("a lawful shape"))
}

/// Tries lists of every such length, of small numbers and of large ones.
fn with_lists(shape: &Shape, mut body: impl FnMut(u32, Vec<u32>)) {
    for length in 0..=2 * shape.word_length() {
        [0, 1, 255, 1024, u32::MAX].into_iter().for_each(|value| body(value, vec![value; length]));
    }
}

/// An answer comes, and nothing panics: words of any length and of any numbers.
#[test]
fn any_words() {
    for shape in small_shapes() {
        let (size, whole) = (shape.word_length(), vec![0; shape.word_length()]);
        with_lists(&shape, |value, list| {
            let (right, fits) = (list.len() == size, list.len() == size && u64::from(value) >> shape.b() == 0);
            for read in [decode, decode_majority, decode_nearest] {
                assert!(read(&shape, &mut list.clone()).is_ok() <= fits);
            }
            assert!(decode_two(&shape, &mut list.clone()).is_ok() <= (fits && shape.n() > 2));
            assert_eq!((check(&shape, &list, &whole).is_ok(), check(&shape, &whole, &list).is_ok()), (fits, fits));
            assert_eq!((looked(&shape, &list).is_ok(), extract(&shape, &list).is_ok()), (fits, fits));
            assert_eq!(looked_with(&shape, &whole, &mut list.clone()).is_ok(), right);
            assert!(fill(&shape, &list, &mut whole.clone()).is_ok() <= (list.len() <= 1));
            assert!(restore(&shape, &list, &mut whole.clone()).is_ok() <= (list.len() <= 1));
            assert!(restore(&shape, &[], &mut list.clone()).is_ok() <= fits);
            let mut bytes: Vec<u8> = list.iter().map(|&number| number as u8).collect();
            assert!(read_word(value, 2, 8, &mut bytes).is_err());
        });
    }
}

/// The same of information symbols and of marks.
#[test]
fn any_data() {
    for shape in small_shapes() {
        with_lists(&shape, |value, list| {
            let right = list.len() == shape.data_length();
            assert!(encode(&shape, &list).is_ok() <= right);
            assert!(parse_page(&shape, &list).is_ok() <= right);
            assert!(write_page_with(&shape, value, &[], &mut list.clone()).is_ok() <= right);
            assert!(write_page_with(&shape, 0, &list, &mut [0; 4]).is_ok() <= (list.len() <= shape.most_marks()));
            let bytes: Vec<u8> = list.iter().map(|&number| number as u8).collect();
            assert!(read_page(3, 2, 8, &bytes).is_ok() <= (bytes.len() == 16));
        });
    }
}

/// The same of working space, and of bundles.
#[test]
fn any_scratch() {
    for shape in small_shapes() {
        let mut session = Session::fresh(&shape).expect("a session");
        let (word, data) = (vec![0; shape.word_length()], vec![0; shape.data_length()]);
        with_lists(&shape, |_, mut list| {
            let (right, whole) = (list.len() == shape.scratch_length(), list.len() % word.len() == 0);
            assert_eq!(fill_with(&shape, &[], &mut word.clone(), &mut list).is_ok(), right);
            assert_eq!(restore_with(&shape, &[], &mut word.clone(), &mut list).is_ok(), right);
            assert_eq!(encode_with(&shape, &data, &mut word.clone(), &mut list).is_ok(), right);
            assert_eq!(extract_with(&shape, &word, &mut data.clone(), &mut list).is_ok(), right);
            let outcome = session.arrive_with(Way::Clean, &mut word.clone(), &mut list);
            assert_eq!(outcome == Outcome::Refused(Refusal::Length), !right);
            assert_eq!(session.arrive_all_with(Way::Clean, &mut word.clone(), &mut list).is_ok(), right);
            assert_eq!(session.arrive_all(Way::Vote, &mut list).is_ok(), whole && !list.is_empty());
        });
    }
}
