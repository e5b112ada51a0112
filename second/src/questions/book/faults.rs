//! What is out of order in a book, and tails that are torn or not.

use crate::examples;
use crate::hex;
use crate::questions::bitfields::sample::{unlisted_bit, Sample, ACKNOWLEDGMENT, EXECUTION};
use crate::questions::made::{example, mark, numbered, Made, DATE, MARK};
use crate::questions::parts::{measure, Parts};
use crate::random::Random;

/// The parts of first marks: all but those of DATE + 1, 0 and 0 are out of order.
pub const FIRST_MARKS: [(u32, u32, u32); 14] = [
    (DATE, 1, 0),
    (DATE, 0, 1),
    (DATE, 0, 16),
    (DATE, 0, u32::MAX),
    (DATE, u32::MAX, 0),
    (DATE, 0x0100_0000, 0),
    (20_250_832, 0, 0),
    (20_250_229, 0, 0),
    (19_691_231, 0, 0),
    (21_000_101, 0, 0),
    (0, 0, 0),
    (DATE + 1, 0, 0),
    (DATE + 1, 1, 0),
    (DATE + 1, 0, 1),
];

/// First marks that do not begin with four zeros.
pub fn without_four_zeros() -> Vec<Vec<u8>> {
    let mut all = Vec::new();
    for place in 0..4 {
        for value in [1, 0xBA, 0x80] {
            let mut bad = mark(DATE, 0, 0);
            bad[place] = value;
            all.push(bad);
        }
    }
    all
}

/// A message where the first mark should be.
pub fn starting_with_a_message() -> [Vec<u8>; 2] {
    let message = examples::booked_acknowledgment();
    [message.clone(), [message, mark(DATE, 1, 57)].concat()]
}

/// The parts of marks that come after a book; the first is in order.
pub fn some_marks(book: &Made) -> Vec<(u32, u32, u32)> {
    let count = book.count;
    let back = (book.bytes.len() - book.last) as u32;
    vec![
        (DATE, count, back),
        (DATE + 1, count, back),
        (DATE - 1, count, back),
        (0, count, back),
        (20_250_832, count, back),
        (DATE, count + 1, back),
        (DATE, count.wrapping_sub(1), back),
        (DATE, 0, back),
        (DATE, 1, back),
        (DATE, count + 0x0100_0000, back),
        (DATE, count, 0),
        (DATE, count, back + 1),
        (DATE, count, back - 1),
        (DATE, count, back + 16),
        (DATE, count, book.bytes.len() as u32),
        (DATE, count, u32::MAX),
        (DATE, count, back + 0x0100_0000),
    ]
}

/// Messages that a book does not take, by the number that the reader gives.
pub fn bad_messages(random: &mut Random) -> Vec<Vec<u8>> {
    let mut bad = vec![
        examples::new_order(),
        examples::cancel(),
        examples::cancel_without_bitfields(),
        examples::login(),
        examples::client_heartbeat(),
        examples::server_heartbeat(),
        examples::replay_complete(),
        examples::logout_with_its_length(),
        examples::login_response_of_the_notes(),
        examples::login_response(),
        examples::logout_request(),
        examples::order_rejected(),
        examples::cancel_rejected(),
        examples::modify_rejected(),
    ];
    for which in [ACKNOWLEDGMENT, EXECUTION] {
        let mut sample = Sample::least(random, which);
        sample.unit = 1;
        sample.number = 1;
        let good = sample.bytes();
        for unit in [0, 33] {
            bad.push(numbered(sample.clone(), unit, 1));
        }
        // 6: a byte more, a byte less, no more than the header.
        let mut longer = good.clone();
        longer.push(0);
        measure(&mut longer);
        bad.push(longer);
        for end in [good.len() - 1, 10] {
            let mut shorter = good[..end].to_vec();
            measure(&mut shorter);
            bad.push(shorter);
        }
        // 7, 8 and 10.
        let mut many = sample.clone();
        many.lengthen(15);
        many.bitfields.push(0);
        many.count = 16;
        bad.push(many.bytes());
        let (byte, bit) = unlisted_bit(which);
        let mut unlisted = sample.clone();
        unlisted.set_bit(byte, bit);
        bad.push(unlisted.bytes());
        for value in [0, b',', b' ', 0x7F] {
            let mut sample = sample.clone();
            sample.value("ClOrdID")[0] = value;
            bad.push(sample.bytes());
        }
    }
    bad
}

/// One byte changed at each place of a small book, and its message's type changed.
pub fn changed_books() -> Vec<Vec<u8>> {
    let mut books = Vec::new();
    for place in 0..example().len() {
        for change in [0x01, 0xFF] {
            let mut book = example();
            book[place] ^= change;
            books.push(book);
        }
    }
    // Every type near the two that a book holds, and those of other messages.
    let others = [
        0, 2, 3, 8, 9, 0x13, 0x36, 0x37, 0x38, 0x39, 0x48, 0xA5, 0xB8, 0xFF,
    ];
    let types = (0x20..=0x30).chain(others);
    for value in types {
        let mut book = example()[..73].to_vec();
        book[MARK + 4] = value;
        books.push(book);
    }
    books
}

/// Each of the tails after a mark, after a message, and after another mark.
pub fn with_tails() -> Vec<Vec<u8>> {
    let whole = example();
    let mut books = Vec::new();
    for book in [&whole[..16], &whole[..73], &whole[..]] {
        for tail in some_tails() {
            books.push([book, &tail].concat());
        }
    }
    books
}

/// Torn tails, and tails that are not.
fn some_tails() -> Vec<Vec<u8>> {
    let mut tails: Vec<Vec<u8>> = Vec::new();
    for digits in [
        "-",
        "0000BA",
        "000000BA",
        "00BA",
        "0001",
        "000001",
        "00000001",
        "01",
        "FF",
        "BA",
        "BABA",
        "BA00",
        "BABB",
        "00BABA08",
        "BABA00",
        "BABAFF",
        "BABA08",
        "BABA0800",
        "BABA0700",
        "BABA0000",
        "BABAFE07",
        "BABAFF07",
        "BABA0008",
        "BABAFFFF",
        "BABA080037",
        "BABA08002501",
        "BABA08000300000000",
        "BABA070025010100",
        "BA00000000000000",
        "BABA370025010200",
        "BABABABABABABABABABABABABABABABABABA",
    ] {
        tails.push(hex::read(digits).expect("hex"));
    }
    for size in 1..=17 {
        tails.push(vec![0; size]);
    }
    for more in 1..=12 {
        for byte in [0xBA, 0xFF, 0x01] {
            let mut tail = vec![0; 4];
            tail.resize(4 + more, byte);
            tails.push(tail);
        }
    }
    // The front of another date's mark.
    for size in 5..=16 {
        tails.push(mark(DATE + 1, 1, 16)[..size].to_vec());
    }
    tails
}
