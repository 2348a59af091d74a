//! The printed shot card, from document 02's paper 1 alone: the model that `dimple_card` is held against. The run is the reference's; the page is
//! made here, in whole numbers and in decimal text, and not from the crate.

use crate::shots::*;
use crate::{Counts, Lent, different, lib_card, threads};
use dimple_ref::oracle::{self, CONTACT, POINT, RESULT};

/// The bytes of a line.
const LINE: usize = 60;

/// Bytes past the page; they must stay.
const GUARD: usize = 8;

/// The whole number nearest k·x for the exact x, halves away from zero, with its sign; a zero has none.
pub fn nearest(k: u32, x: f64) -> i64 {
    let field = x.to_bits() >> 52 & 0x7ff;
    let digits = u128::from(x.to_bits() & 0xf_ffff_ffff_ffff);
    assert!(field < 2047, "a finished run holds finite numbers");
    let (m, e) = if field == 0 { (digits, -1074) } else { (digits | 1 << 52, field as i32 - 1075) };
    let km = u128::from(k) * m;
    // k·|x| is km·2^e: twice that and 1, halved, is k·|x| + 1/2 cut to a whole number
    let n = match e {
        0.. => km << e,
        -126.. => ((km << 1 >> -e) + 1) >> 1,
        _ => 0,
    };
    let n = i64::try_from(n).expect("a magnitude of at most 1,000,000");
    if x < 0.0 { -n } else { n }
}

/// The same from the exact decimal expansion, digit by digit.
fn by_decimals(k: u32, x: f64) -> i64 {
    let text = format!("{:.1074}", x.abs());
    let (whole, part) = text.split_once('.').expect("a point");
    let places = if k == 1000 { 3 } else { 2 };
    let n: i64 = format!("{whole}{}", &part[..places]).parse().expect("digits");
    let n = n + i64::from(part.as_bytes()[places] >= b'5');
    if x < 0.0 { -n } else { n }
}

/// "one heading line, then one line a contact"
fn lines(termination: u32, contacts: &[f64], count: usize) -> Vec<u8> {
    let word = ["-", "rest", "time", "impacts"][termination as usize];
    let mut out = format!("{word:<59}\n");
    for (i, c) in contacts.chunks_exact(CONTACT).take(count).enumerate() {
        let [t, x, y, z] = [nearest(1000, c[0]), nearest(100, c[1]), nearest(100, c[2]), nearest(100, c[3])];
        out += &format!("{:>4}{t:>11}{x:>14}{y:>14}{z:>14}  \n", i + 1);
    }
    assert_eq!(out.len(), LINE * (1 + count), "every line has 60 bytes");
    out.into_bytes()
}

/// Numbers whose rounding is worth a look: exact halves and their neighbours, what rounds to zero, the ends of the range.
fn odd_number(r: &mut Rng, halves: f64, most: f64) -> f64 {
    let half = (2.0 * r.below(4000) as f64 + 1.0) / halves;
    let x = match r.below(9) {
        0 | 1 => half,
        2 => up(half),
        3 => down(half),
        4 => r.pick(&[0.00004, 0.00005, 0.000_049_999, 0.005, 0.004_999_999, 0.0005, 0.0, 5e-324, 1e-300]),
        5 => most,
        6 => down(most),
        7 => r.scale(1e-9, most),
        _ => r.range(0.0, 20.0),
    };
    if r.chance(2) { -x } else { x }
}

/// What the page's length is: about the need, or any.
fn page_length(r: &mut Rng, need: usize) -> usize {
    match r.below(10) {
        0..=2 => need,
        3 => need - 1,
        4 => need + 1,
        5 => need - LINE,
        6 => need + r.below(2 * LINE),
        7 => r.below(LINE + 2),
        8 => need - r.below(need.min(2 * LINE)),
        _ => r.below(2 * need),
    }
}

fn check(r: &mut Rng, c: &mut Counts, tally: &mut Tally, case: &Case) {
    let input = &case.bytes;
    let result_len = if r.chance(20) { r.below(24) } else { RESULT };
    let mut contacts = Lent::new(r, case.contacts);
    let mut points = Lent::new(r, case.points);
    let mut result = Lent::new(r, result_len);
    let out = oracle::settle(input, case.contacts, case.points, false);
    let need = LINE * (1 + out.contacts.len());
    let page_len = page_length(r, need);
    let mut expected: Vec<u8> = (0..page_len + GUARD).map(|_| r.next() as u8).collect();
    let mut given = expected.clone();
    oracle::write_settle(
        &out,
        &mut contacts.expected[..case.contacts],
        &mut points.expected[..case.points],
        &mut result.expected[..result_len],
    );
    let mut answer = out.answer;
    if answer == 0 && page_len < need {
        answer = 30;
        tally.short += 1;
        if result_len >= RESULT {
            result.expected[0] = 30.0;
        }
    } else if answer == 0 {
        let text = lines(out.termination, &contacts.expected, out.contacts.len());
        expected[..need].copy_from_slice(&text);
        tally.printed += 1;
        tally.lines += out.contacts.len() as u64;
        for record in &out.contacts {
            for (k, x) in [(1000, record[0]), (100, record[1]), (100, record[2]), (100, record[3])] {
                tally.value(r, k, x);
            }
        }
    }
    let got = lib_card(
        input,
        &mut contacts.given[..case.contacts],
        &mut points.given[..case.points],
        &mut result.given[..result_len],
        &mut given[..page_len],
    );
    if got != answer {
        different(case.what, format!("answer {got}, expected {answer} (page {page_len}, need {need})"), input);
    } else if let Some(i) = (0..given.len()).find(|&i| given[i] != expected[i]) {
        different(case.what, format!("page at {i}: {} expected {} (page {page_len}, need {need})", given[i], expected[i]), input);
    } else {
        for (name, l) in [("result", &result), ("contacts", &contacts), ("points", &points)] {
            if let Some(i) = l.differs() {
                different(case.what, format!("{name} {} (answer {answer})", l.shown(i)), input);
                break;
            }
        }
    }
    c.count(&out);
}

/// What the cards held.
#[derive(Default)]
struct Tally {
    printed: u64,
    short: u64,
    lines: u64,
    halves: u64,
    zeros_below: u64,
    ends: u64,
    decimals: u64,
}

impl Tally {
    fn value(&mut self, r: &mut Rng, k: u32, x: f64) {
        let n = nearest(k, x);
        // twice k·x is exact here: a half is an odd whole number of halves
        let twice = 2.0 * f64::from(k) * x;
        self.halves += u64::from(twice.abs() < 4e15 && twice.fract() == 0.0 && twice % 2.0 != 0.0);
        self.zeros_below += u64::from(n == 0 && x < 0.0);
        self.ends += u64::from(x.abs() == 100_000.0);
        if r.chance(200) || n == 0 {
            self.decimals += 1;
            assert_eq!(n, by_decimals(k, x), "the model of {k} times {x:?}");
        }
    }
    fn merge(&mut self, o: &Tally) {
        self.printed += o.printed;
        self.short += o.short;
        self.lines += o.lines;
        self.halves += o.halves;
        self.zeros_below += o.zeros_below;
        self.ends += o.ends;
        self.decimals += o.decimals;
    }
}

/// Shots whose landing has odd numbers in it: the first contact's line prints them.
fn cases(r: &mut Rng, i: u64) -> Vec<Case> {
    if i % 4 == 3 {
        return random_cases(r, i / 4);
    }
    let mut s = random_shot(r);
    s.set(TIME, odd_number(r, 16.0, 100_000.0).abs());
    for k in 0..3 {
        s.set(POS + k, odd_number(r, 8.0, 100_000.0));
    }
    if r.chance(2) {
        s.set(MAX_TIME, r.range(0.0, 3.0));
    }
    vec![Case::of("card", s.bytes(), r.pick(&[64, 220]) * CONTACT, AMPLE.1 * POINT)]
}

pub fn run(seed: u64, cards: u64, n: u64) {
    println!("card: seed {seed}, at least {cards} cards, {n} threads");
    let (mut counts, mut tally) = (Counts::default(), Tally::default());
    for (c, t) in threads(n, |k| {
        let (mut c, mut t) = (Counts::default(), Tally::default());
        let mut r = Rng(seed.wrapping_mul(1000) + 900 + k);
        if k == 0 {
            for case in bench_cases().into_iter().chain(number_cases()) {
                check(&mut r, &mut c, &mut t, &case);
            }
        }
        let mut i = 0;
        while c.cases < cards.div_ceil(n) {
            for case in cases(&mut r, i) {
                check(&mut r, &mut c, &mut t, &case);
            }
            i += 1;
        }
        (c, t)
    }) {
        counts.merge(&c);
        tally.merge(&t);
    }
    counts.print_answers();
    println!("printed {}, answered 30 {}, contact lines {}", tally.printed, tally.short, tally.lines);
    println!(
        "values: exact halves {}, below 0 and rounded to 0 {}, at 100,000 either way {}; also by decimals {}",
        tally.halves, tally.zeros_below, tally.ends, tally.decimals
    );
}
