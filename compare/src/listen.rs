//! The bay's microphones, from document 02's paper 14 alone: the walk that `dimple_listen` is held against, since the Rust has none.

use crate::shots::Rng;
use crate::{different, threads};
use std::collections::{BTreeMap, VecDeque};

#[cfg(has_dimple_listen)]
unsafe extern "C" {
    fn dimple_listen(
        heard: *const f64,
        heard_len: usize,
        contacts: *const f64,
        contacts_len: usize,
        count: u64,
        tolerance: f64,
        marks: *mut u8,
        marks_len: usize,
        totals: *mut f64,
        totals_len: usize,
    ) -> u32;
}

#[cfg(not(has_dimple_listen))]
#[allow(clippy::too_many_arguments)]
unsafe fn dimple_listen(
    _: *const f64,
    _: usize,
    _: *const f64,
    _: usize,
    _: u64,
    _: f64,
    _: *mut u8,
    _: usize,
    _: *mut f64,
    _: usize,
) -> u32 {
    println!("dimple_listen was not there when this was built");
    std::process::exit(2);
}

/// The doubles of a contact record; the first is the time.
const CONTACT: usize = 20;
/// Bytes past the marks and doubles past the totals; they must stay.
const GUARD: usize = 4;

/// A wrong walk or a wrong test, to see that the cases tell it from the right one.
#[derive(Clone, Copy, PartialEq)]
enum Plant {
    None,
    Strict,
    LaterFront,
    PairTakesHeardAlone,
    ContactsFirst,
    FortyFirst,
    RoomForHeardAlone,
    OneMarkMore,
    MinusZeroEarlier,
}

const PLANTS: [(&str, Plant); 8] = [
    ("strict comparison with the tolerance", Plant::Strict),
    ("the later front marked", Plant::LaterFront),
    ("a pair that takes the heard time alone", Plant::PairTakesHeardAlone),
    ("the contacts' marks first", Plant::ContactsFirst),
    ("40 before 39", Plant::FortyFirst),
    ("41 for the heard times alone", Plant::RoomForHeardAlone),
    ("a mark past the end", Plant::OneMarkMore),
    ("-0 before +0", Plant::MinusZeroEarlier),
];

struct Call {
    heard: Vec<f64>,
    contacts: Vec<f64>,
    count: u64,
    tolerance: f64,
    marks: Vec<u8>,
    marks_len: usize,
    totals: Vec<f64>,
    totals_len: usize,
}

#[derive(PartialEq)]
struct Out {
    answer: u32,
    marks: Vec<u8>,
    totals: Vec<u64>,
}

/// "NaN, outside 0..1,000,000 or lower than the one before in its list"
fn bad_times(times: &[f64], plant: Plant) -> bool {
    let lower = |a: f64, b: f64| if plant == Plant::MinusZeroEarlier { b.total_cmp(&a).is_lt() } else { b < a };
    times.iter().any(|t| t.is_nan() || *t < 0.0 || *t > 1_000_000.0) || times.windows(2).any(|w| lower(w[0], w[1]))
}

/// The marks of the heard times and those of the contacts.
fn walk(heard: &[f64], computed: &[f64], tolerance: f64, plant: Plant) -> (Vec<u8>, Vec<u8>) {
    let mut marks = (vec![9; heard.len()], vec![9; computed.len()]);
    let mut h: VecDeque<(usize, f64)> = heard.iter().copied().enumerate().collect();
    let mut c: VecDeque<(usize, f64)> = computed.iter().copied().enumerate().collect();
    while let (Some(&(i, a)), Some(&(j, b))) = (h.front(), c.front()) {
        let apart = (a - b).abs();
        if apart < tolerance || (apart == tolerance && plant != Plant::Strict) {
            (marks.0[i], marks.1[j]) = (0, 0);
            h.pop_front();
            if plant != Plant::PairTakesHeardAlone {
                c.pop_front();
            }
        } else if (a < b) != (plant == Plant::LaterFront) {
            marks.0[i] = 1;
            h.pop_front();
        } else {
            assert!(b < a || plant != Plant::None, "of two fronts that are apart one is earlier");
            marks.1[j] = 2;
            c.pop_front();
        }
    }
    h.into_iter().for_each(|(i, _)| marks.0[i] = 1);
    c.into_iter().for_each(|(j, _)| marks.1[j] = 2);
    marks
}

fn expected(call: &Call, plant: Plant) -> Out {
    let mut out = Out { answer: 0, marks: call.marks.clone(), totals: call.totals.iter().map(|x| x.to_bits()).collect() };
    if call.totals_len != 3 {
        out.answer = 100;
        return out;
    }
    out.totals[..3].fill(0);
    let short = u128::from(call.count) * CONTACT as u128 > call.contacts.len() as u128;
    if call.contacts.len() % CONTACT != 0 || short {
        out.answer = 8;
        return out;
    }
    let computed: Vec<f64> = call.contacts.chunks(CONTACT).take(call.count as usize).map(|r| r[0]).collect();
    let wrong_times = call.heard.len() > 256 || bad_times(&call.heard, plant) || bad_times(&computed, plant);
    let wrong_tolerance = !(0.0..=0.1).contains(&call.tolerance);
    let need = call.heard.len() + computed.len();
    let room = if plant == Plant::RoomForHeardAlone { call.heard.len() } else { need };
    out.answer = match (wrong_times, wrong_tolerance) {
        (true, true) if plant == Plant::FortyFirst => 40,
        (true, _) => 39,
        (_, true) => 40,
        _ if call.marks_len < room => 41,
        _ => 0,
    };
    if out.answer != 0 {
        return out;
    }
    let (h, c) = walk(&call.heard, &computed, call.tolerance, plant);
    let count = |l: &[u8], m: u8| (l.iter().filter(|&&x| x == m).count() as f64).to_bits();
    out.totals[..3].copy_from_slice(&[count(&h, 0), count(&h, 1), count(&c, 2)]);
    let all = if plant == Plant::ContactsFirst { [c, h].concat() } else { [h, c].concat() };
    let fits = all.len().min(out.marks.len());
    out.marks[..fits].copy_from_slice(&all[..fits]);
    if plant == Plant::OneMarkMore {
        out.marks[fits.min(call.marks_len + GUARD - 1)] = 2;
    }
    out
}

/// Whole 1024ths of a second are exact, and so are their differences.
fn tick(r: &mut Rng) -> f64 {
    r.below(200) as f64 / 1024.0
}

/// In order, with ties and with steps of the tolerance and its neighbours.
fn times(r: &mut Rng, n: usize, tolerance: f64) -> Vec<f64> {
    let mut t = match r.below(5) {
        0 => r.pick(&[0.0, -0.0]),
        1 => 999_999.0,
        2 => r.range(0.0, 1000.0),
        _ => r.below(4096) as f64 / 1024.0,
    };
    (0..n)
        .map(|_| {
            let now = t;
            t += match r.below(7) {
                0 => 0.0,
                1 => tolerance,
                2 => 2.0 * tolerance,
                3 => tolerance.next_up(),
                4 => r.range(0.0, 0.3),
                _ => tick(r),
            };
            if r.chance(40) && now == 0.0 { -now } else { now }
        })
        .collect()
}

/// Times heard of some contacts: late or early by about the tolerance, some missing, some more.
fn heard_of(r: &mut Rng, computed: &[f64], tolerance: f64) -> Vec<f64> {
    let mut heard: Vec<f64> = vec![];
    for &t in computed {
        if r.chance(6) {
            continue;
        }
        let by = match r.below(8) {
            0 | 1 => tolerance,
            2 => 0.0,
            3 => tolerance.next_up(),
            4 => tick(r),
            5 => r.range(0.0, 0.12),
            _ => tolerance.next_down().max(0.0),
        };
        let x = t + r.sign() * by;
        heard.push(match r.below(12) {
            0 => x.next_up(),
            1 => x.next_down(),
            _ => x,
        });
        if r.chance(8) {
            heard.push(t + tick(r));
        }
    }
    heard.iter_mut().for_each(|x| *x = x.clamp(0.0, 1_000_000.0));
    heard.sort_by(|a, b| a.partial_cmp(b).expect("numbers"));
    heard
}

fn damage(r: &mut Rng, list: &mut [f64]) {
    if !list.is_empty() {
        let at = r.below(list.len());
        list[at] = match r.below(8) {
            0 => f64::NAN,
            1 => -5e-324,
            2 => 1_000_000f64.next_up(),
            3 => 1_000_000.0,
            4 => f64::INFINITY,
            5 => list[at].next_down(),
            6 => -0.0,
            _ => f64::from_bits(r.next()),
        };
    }
}

fn call(r: &mut Rng) -> Call {
    const WIDE: [f64; 8] = [0.0, 0.1, 0.0625, 0.03125, 0.0009765625, 0.05, 5e-324, -0.0];
    let good = if r.chance(4) { r.range(0.0, 0.1) } else { r.pick(&WIDE) };
    let m = match r.below(12) {
        0 => 0,
        1 => 64,
        2 => r.below(300),
        _ => r.below(14),
    };
    let mut computed = times(r, m, good);
    let mut heard = if r.chance(4) {
        let n = r.below(14);
        times(r, n, good)
    } else {
        heard_of(r, &computed, good)
    };
    match r.below(40) {
        0 => heard.clear(),
        1 => heard = times(r, 256, 0.0),
        2 => heard = times(r, 257, 0.0),
        3 => heard = computed.clone(),
        _ => (),
    }
    if r.chance(12) {
        damage(r, &mut heard);
    }
    if r.chance(12) {
        damage(r, &mut computed);
    }
    let mut contacts: Vec<f64> = vec![];
    for t in &computed {
        contacts.push(*t);
        contacts.extend((1..CONTACT).map(|_| f64::from_bits(r.next())));
    }
    let mut count = m as u64;
    match r.below(30) {
        0 => contacts.extend((0..1 + r.below(19)).map(|_| 1.0)),
        1 => contacts.truncate(contacts.len().saturating_sub(1 + r.below(25))),
        2 => count += 1 + r.below(3) as u64,
        3 => count = r.pick(&[u64::MAX, u64::MAX / 20, u64::MAX / 20 + 1, 1 << 63, 1 << 32, 922_337_203_685_477_581]),
        4..=9 => count = r.below(m + 1) as u64,
        10..=12 => contacts.extend((0..CONTACT * r.below(4)).map(|_| f64::from_bits(r.next()))),
        _ => (),
    }
    let tolerance = match r.below(30) {
        0 => 0.1f64.next_up(),
        1 => -5e-324,
        2 => f64::NAN,
        3 => r.pick(&[f64::INFINITY, -1.0, 1.0, -0.1]),
        _ => good,
    };
    let need = heard.len() + count.min(400) as usize;
    let marks_len = match r.below(12) {
        0 => need.saturating_sub(1),
        1 => heard.len(),
        2 => r.below(need + 1),
        3 => need + r.below(20),
        _ => need,
    };
    let totals_len = if r.chance(60) { r.pick(&[0, 1, 2, 4, 5]) } else { 3 };
    let marks = (0..marks_len + GUARD).map(|_| r.next() as u8).collect();
    let totals = (0..totals_len + GUARD).map(|_| f64::from_bits(r.next())).collect();
    Call { heard, contacts, count, tolerance, marks, marks_len, totals, totals_len }
}

#[derive(Default)]
struct Counts {
    answers: BTreeMap<u32, u64>,
    marks: [u64; 3],
    /// fronts exactly the tolerance apart
    ends: u64,
    full: u64,
    plants: [u64; 8],
}

fn check(call: &Call, c: &mut Counts) {
    let want = expected(call, Plant::None);
    let (mut marks, mut totals) = (call.marks.clone(), call.totals.clone());
    let answer = unsafe {
        dimple_listen(
            call.heard.as_ptr(),
            call.heard.len(),
            call.contacts.as_ptr(),
            call.contacts.len(),
            call.count,
            call.tolerance,
            marks.as_mut_ptr(),
            call.marks_len,
            totals.as_mut_ptr(),
            call.totals_len,
        )
    };
    let got = Out { answer, marks, totals: totals.iter().map(|x| x.to_bits()).collect() };
    if got != want {
        let detail = format!(
            "answer {answer}, expected {}; marks {:?}, expected {:?}; totals {totals:?}; heard {:?}, count {}, tolerance {:?}",
            want.answer, got.marks, want.marks, call.heard, call.count, call.tolerance
        );
        let input: Vec<u8> = call.heard.iter().chain(&call.contacts).flat_map(|x| x.to_le_bytes()).collect();
        different("listen", detail, &input);
    }
    *c.answers.entry(want.answer).or_default() += 1;
    if want.answer == 0 {
        (0..3).for_each(|i| c.marks[i] += f64::from_bits(want.totals[i]) as u64);
        c.full += u64::from(call.heard.len() == 256);
        c.ends += u64::from(expected(call, Plant::Strict) != want);
    }
    for (i, (_, plant)) in PLANTS.iter().enumerate() {
        c.plants[i] += u64::from(expected(call, *plant) != want);
    }
}

pub fn run(seed: u64, cases: u64, n: u64) {
    println!("listen: seed {seed}, {cases} calls, {n} threads");
    let mut total = Counts::default();
    for c in threads(n, |i| {
        let (mut c, mut r) = (Counts::default(), Rng(seed.wrapping_mul(1000) + 950 + i));
        for _ in 0..cases.div_ceil(n) {
            check(&call(&mut r), &mut c);
        }
        c
    }) {
        (0..3).for_each(|i| total.marks[i] += c.marks[i]);
        (0..8).for_each(|i| total.plants[i] += c.plants[i]);
        total.ends += c.ends;
        total.full += c.full;
        c.answers.iter().for_each(|(a, k)| *total.answers.entry(*a).or_default() += k);
    }
    println!("answers: {}", total.answers.iter().map(|(a, k)| format!("{a}: {k}")).collect::<Vec<_>>().join(", "));
    let [pairs, heard, computed] = total.marks;
    println!("pairs {pairs}, heard only {heard}, computed only {computed}; calls with 256 heard {}", total.full);
    println!("calls in which a pair is exactly the tolerance apart: {}", total.ends);
    for (i, (what, _)) in PLANTS.iter().enumerate() {
        println!("  {} calls would tell: {what}", total.plants[i]);
        assert!(total.plants[i] > 0 || cases < 10_000, "no call tells {what}");
    }
}
