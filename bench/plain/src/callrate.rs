//! The benchmark `callrate`: each load fills a book, makes many calls, and prints the sum of the answers.

use crate::answer::Answer;
use crate::bids::mixed_bid;
use crate::book::Book;
use crate::codes::code_of;
use std::ops::RangeInclusive;

/// How many calls a load makes.
const MIXED_BIDS: u32 = 100_000;
const STANDING_BIDS: u32 = 130_000;
const REFUSED_BIDS: u32 = 400_000;
const SINGLE_HOUR_BIDS: u32 = 100_000;
const NOMINATIONS: u32 = 100_000;
const CONFIRMED_READS: u32 = 100_000;
const SHORT_READS: u32 = 20_000_000;

/// The loads by name, in the order in which all of them are run.
pub const LOADS: [(&str, fn() -> Sum); 11] = [
    ("bids", bids),
    ("standing", standing),
    ("full", full),
    ("one-hour", one_hour),
    ("first-hour", first_hour),
    ("nominate-few", nominate_few),
    ("nominate-many", nominate_many),
    ("confirmed-few", confirmed_few),
    ("confirmed-many", confirmed_many),
    ("left", left),
    ("right", right),
];

/// How many calls were made, and the sum of what they answered, modulo 2^32.
#[derive(Default)]
pub struct Sum {
    calls: u32,
    sum: u32,
}

impl Sum {
    fn add(&mut self, value: u32) {
        self.sum = self.sum.wrapping_add(value);
    }

    fn answer(&mut self, answer: Answer) {
        let (number, first, second) = answer.numbers();
        self.calls += 1;
        self.add(number.into());
        self.add(first);
        self.add(second);
    }
}

/// How many calls had each answer, by its number, below 32.
#[derive(Default)]
struct Counts([u32; 32]);

impl Counts {
    fn add(&mut self, answer: Answer) {
        self.0[usize::from(answer.numbers().0)] += 1;
    }
}

// ---- books

/// Every table of the set-up full, and 9,999 MW in some hours. The first twelve directions have the model, the others are four-hour ones.
fn set_up(model: u8, hours: RangeInclusive<u8>, counts: &mut Counts) -> Book {
    let (mut book, answer) = Book::open(2015, 6, 1);
    counts.add(answer);
    for k in 0..35 {
        let model = if k < 14 { model } else { 4 };
        counts.add(book.add_direction(k / 7, k % 7, model));
    }
    for p in 0..8 {
        counts.add(book.add_profile(0x3003 << p));
    }
    for number in 0..100 {
        counts.add(book.add_party(code_of(number), 127));
    }
    for hour in hours.rev() {
        for direction in 0..24 {
            counts.add(book.offer_direction(1000, direction, hour, 9999));
        }
        for profile in 0..8 {
            counts.add(book.offer_profile(1000, profile, hour, 9999));
        }
    }
    book
}

/// Four-hour directions, and capacity in the last session.
fn four_hour_book() -> Book {
    set_up(4, 21..=24, &mut Counts::default())
}

/// Eight rights for each of the 64 parties: right r is party r / 8's on direction r % 8.
fn many_rights() -> Book {
    let mut book = four_hour_book();
    for r in 0..512u32 {
        book.bid(2300, (r / 8) as u8, (r % 8) as u8, 6, [10, 10, 10, 10, 0]);
    }
    book
}

/// Each offer of the last hour is cut to 100 MW, for some of them under what is granted.
fn cut_offers(book: &mut Book) {
    for direction in 0..24 {
        book.offer_direction(2300, direction, 24, 100);
    }
    for profile in 0..8 {
        book.offer_profile(2300, profile, 24, 100);
    }
}

/// Five rights, all party 63's: right r is on direction r.
fn few_rights() -> Book {
    let mut book = four_hour_book();
    for r in 0..5 {
        book.bid(2300, 63, r, 6, [500, 500, 500, 500, 0]);
    }
    book
}

/// A pair by what names it.
struct Name {
    right: u16,
    out: u8,
    into: u8,
}

/// Which pair is which of the 512.
type Pairs = fn(u32) -> Name;

/// A pair under each of the many rights.
fn many_pair(p: u32) -> Name {
    Name {
        right: p as u16,
        out: (p / 8) as u8,
        into: 63 - (p / 8) as u8,
    }
}

/// 127 pairs under a right, the most that it can have, since one of the two is its holder.
fn few_pair(p: u32) -> Name {
    let k = (p % 127) as u8;
    let (out, into) = if k < 64 { (63, k) } else { (k - 64, 63) };
    Name {
        right: (p / 127) as u16,
        out,
        into,
    }
}

fn mw_of(i: u32) -> [u16; 5] {
    let small = (1 + i % 9) as u16;
    [small, 10 - small, small + 5, 15 - small, 0]
}

fn nominate(book: &mut Book, pair: Name, side: u8, mw: [u16; 5]) -> Answer {
    let (sender, other) = if side == 0 {
        (pair.out, pair.into)
    } else {
        (pair.into, pair.out)
    };
    book.nominate(2300, sender, other, pair.right, side, mw)
}

/// Both sides of all 512 pairs.
fn nominate_all(book: &mut Book, pairs: Pairs) {
    for i in 0..1024 {
        nominate(book, pairs(i % 512), (i / 512) as u8, mw_of(i));
    }
}

fn match_all(book: &mut Book) {
    for direction in 0..8 {
        book.match_session(2600, direction, 6);
    }
}

// ---- loads

/// Bids of all kinds, granted and refused, in six windows. Prints how many had each answer.
fn bids() -> Sum {
    let mut before = Counts::default();
    let mut book = set_up(1, 1..=24, &mut before);
    println!("{} calls of set-up and offers granted", before.0[0]);
    let mut counts = Counts::default();
    let mut sum = Sum::default();
    for i in 0..MIXED_BIDS {
        let bid = mixed_bid(i);
        let answer = book.bid(bid.time, bid.party, bid.direction, bid.session, bid.mw);
        counts.add(answer);
        sum.answer(answer);
    }
    for (number, count) in counts.0.iter().enumerate().filter(|(_, &count)| count > 0) {
        println!("{count} bids with answer {number}");
    }
    sum
}

/// Bids for 1 MW in one hour that add to one of the last 64 of 512 rights.
fn standing() -> Sum {
    let mut book = many_rights();
    let mut sum = Sum::default();
    for i in 0..STANDING_BIDS {
        let mut mw = [0; 5];
        mw[(i / 64 % 4) as usize] = 1;
        sum.answer(book.bid(2300, (56 + i / 8 % 8) as u8, (i % 8) as u8, 6, mw));
    }
    sum
}

/// Bids that would need a right more than 512.
fn full() -> Sum {
    let mut book = many_rights();
    let mut sum = Sum::default();
    for i in 0..REFUSED_BIDS {
        sum.answer(book.bid(2300, (i % 64) as u8, 8, 6, [1, 1, 1, 1, 0]));
    }
    sum
}

/// Bids in rounds of 512, since there is room for as many rights: each round begins on the book as it was filled.
fn rounds_of_bids(bid: impl Fn(&mut Book, u32) -> Answer) -> Sum {
    let mut book = set_up(1, 1..=24, &mut Counts::default());
    let filled = book.clone();
    let mut sum = Sum::default();
    for i in 0..SINGLE_HOUR_BIDS {
        if i % 512 == 0 {
            book.put_back(&filled);
        }
        sum.answer(bid(&mut book, i));
    }
    sum
}

/// Bids for 1 MW on directions with one-hour sessions, each of which opens a right.
fn one_hour() -> Sum {
    rounds_of_bids(|book, i| {
        let session = (21 + i / 12 % 4) as u8;
        book.bid(
            2300,
            (i % 64) as u8,
            (i % 12) as u8,
            session,
            [1, 0, 0, 0, 0],
        )
    })
}

/// Bids for 1 MW in the first of four hours, all of one party, so that they add to 12 rights.
fn first_hour() -> Sum {
    rounds_of_bids(|book, i| book.bid(2300, 0, (12 + i % 12) as u8, 6, [1, 0, 0, 0, 0]))
}

/// Nominations that replace a side of one of 512 pairs.
fn nominations(mut book: Book, pairs: Pairs) -> Sum {
    nominate_all(&mut book, pairs);
    let mut sum = Sum::default();
    for i in 0..NOMINATIONS {
        let pair = pairs(i % 512 * 37 % 512);
        sum.answer(nominate(&mut book, pair, (i / 512 % 2) as u8, mw_of(i)));
    }
    sum
}

fn nominate_few() -> Sum {
    nominations(few_rights(), few_pair)
}

fn nominate_many() -> Sum {
    nominations(many_rights(), many_pair)
}

/// Reads of the confirmed MW of each of 512 pairs.
fn confirmed(mut book: Book, pairs: Pairs) -> Sum {
    nominate_all(&mut book, pairs);
    match_all(&mut book);
    let mut sum = Sum::default();
    for i in 0..CONFIRMED_READS {
        let pair = pairs(i % 512 * 37 % 512);
        match book.confirmed_of(pair.right, pair.out, pair.into) {
            Ok(mw) => {
                sum.answer(Answer::Granted(0));
                mw.into_iter().for_each(|m| sum.add(m));
            }
            Err(refusal) => sum.answer(refusal),
        }
    }
    sum
}

fn confirmed_few() -> Sum {
    confirmed(few_rights(), few_pair)
}

fn confirmed_many() -> Sum {
    confirmed(many_rights(), many_pair)
}

/// Reads of what is left of a direction or a profile, of hours that are offered, cut, not offered, and not there.
fn left() -> Sum {
    let mut book = many_rights();
    cut_offers(&mut book);
    let mut sum = Sum::default();
    for i in 0..SHORT_READS {
        let row = (i % 32) as u8;
        let hour = (i / 32 % 26) as u8;
        let read = if row < 24 {
            book.left_of_direction(row, hour)
        } else {
            book.left_of_profile(row - 24, hour)
        };
        match read {
            Ok(read) => {
                sum.answer(Answer::Granted(0));
                sum.add(read.left);
                sum.add(read.shortfall);
            }
            Err(refusal) => sum.answer(refusal),
        }
    }
    sum
}

/// Reads of rights, of which a few are not there.
fn right() -> Sum {
    let book = many_rights();
    let mut sum = Sum::default();
    for i in 0..SHORT_READS {
        match book.right_at((i % 520) as u16) {
            Ok(right) => {
                sum.answer(Answer::Granted(0));
                sum.add(right.holder.into());
                sum.add(right.direction.into());
                sum.add(right.session.into());
                right.mw.into_iter().for_each(|m| sum.add(m));
            }
            Err(refusal) => sum.answer(refusal),
        }
    }
    sum
}

/// The named load, or all of them.
pub fn run(chosen: Option<&str>) {
    for (name, load) in LOADS {
        if chosen.is_none_or(|word| word == name) {
            let Sum { calls, sum } = load();
            println!("{name}: {calls} calls, sum {sum}");
        }
    }
}
