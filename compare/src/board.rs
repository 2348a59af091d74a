//! The board's doors against a model that is written from documents 01 and 02, not from the crate: chains of calls from a new board, where the
//! model sorts what it accepted; and any buffer, damaged or made up, where an entry goes before the first that comes after it. After every
//! call the answer and the whole buffer are compared, with four doubles past it.

use crate::shots::*;
use std::cmp::Ordering;

#[cfg(has_dimple_board_enter)]
unsafe extern "C" {
    fn dimple_board_new(pin_x: f64, pin_z: f64, board: *mut f64, len: usize) -> u32;
    fn dimple_board_enter(
        board: *mut f64,
        len: usize,
        bay: u32,
        shot: u32,
        termination: u32,
        contacts: u32,
        x: f64,
        z: f64,
    ) -> u32;
    fn dimple_board_place(board: *const f64, len: usize, place: u64, shot: *mut f64, shot_len: usize) -> u32;
}

/// The doubles of an entry and of a board.
const WIDTH: usize = 6;
const LEN: usize = 3 + 256 * WIDTH;
const GUARD: usize = 4;

#[derive(Clone, Copy, Debug)]
struct Entry {
    shot: u32,
    bay: u32,
    termination: u32,
    contacts: u32,
    x: f64,
    z: f64,
}

const EMPTY: Entry = Entry { shot: 0, bay: 0, termination: 0, contacts: 0, x: 0.0, z: 0.0 };

/// 02, paper 2: rest first; 01: least key; 02, paper 7: fewer contacts, then lower shot number.
fn order(pin: (f64, f64), e: &Entry, f: &Entry) -> Ordering {
    let moving = |e: &Entry| e.termination != 1;
    let key = |e: &Entry| {
        let (dx, dz) = (e.x - pin.0, e.z - pin.1);
        dx * dx + dz * dz
    };
    moving(e)
        .cmp(&moving(f))
        .then(key(e).partial_cmp(&key(f)).expect("keys are numbers"))
        .then(e.contacts.cmp(&f.contacts))
        .then(e.shot.cmp(&f.shot))
}

fn near(x: f64, most: f64) -> bool {
    x.abs() <= most
}

/// What a buffer holds: the listing, and the places past it.
struct Board {
    pin: (f64, f64),
    listing: Vec<Entry>,
    past: Vec<Entry>,
}

fn whole(x: f64, least: u32, most: u32) -> Option<u32> {
    (x >= f64::from(least) && x <= f64::from(most) && x.fract() == 0.0).then_some(x as u32)
}

impl Board {
    fn empty(pin: (f64, f64)) -> Self {
        Self { pin, listing: vec![], past: vec![EMPTY; 256] }
    }
    fn read(l: &[f64]) -> Option<Self> {
        let count = whole(l[2], 0, 256)? as usize;
        let pin = (near(l[0], 100_000.0) && near(l[1], 100_000.0)).then_some((l[0], l[1]))?;
        let mut all = vec![];
        for (i, d) in l[3..].chunks(WIDTH).enumerate() {
            let (shot, bay, termination) = (whole(d[0], 0, u32::MAX)?, whole(d[1], 0, 7)?, whole(d[2], u32::from(i < count), 3)?);
            let e = Entry { shot, bay, termination, contacts: whole(d[3], 0, u32::MAX)?, x: d[4], z: d[5] };
            all.push((near(e.x, 1e6) && near(e.z, 1e6)).then_some(e)?);
        }
        let past = all.split_off(count);
        Some(Self { pin, listing: all, past })
    }
    fn doubles(&self) -> Vec<f64> {
        let mut l = vec![self.pin.0, self.pin.1, self.listing.len() as f64];
        for e in self.listing.iter().chain(&self.past) {
            l.extend([f64::from(e.shot), f64::from(e.bay), f64::from(e.termination), f64::from(e.contacts), e.x, e.z]);
        }
        l
    }
    /// 31, 10, 25, 24: this bay has used its 32. On a board with no place left, which the doors do not make, 24 too.
    fn refuses(&self, e: &Entry) -> Option<u32> {
        if e.bay > 7 {
            Some(31)
        } else if !(near(e.x, 1e6) && near(e.z, 1e6)) {
            Some(10)
        } else if self.listing.iter().any(|f| f.shot == e.shot) {
            Some(25)
        } else if self.listing.iter().filter(|f| f.bay == e.bay).count() >= 32 || self.listing.len() == 256 {
            Some(24)
        } else {
            None
        }
    }
}

/// dimple_board_enter on any buffer: the answer, and the buffer after it.
fn enter(l: &[f64], e: &Entry) -> (u32, Vec<f64>) {
    if l.len() != LEN {
        return (100, l.to_vec());
    }
    let Some(mut b) = Board::read(l) else { return (101, l.to_vec()) };
    if !(1..=3).contains(&e.termination) {
        return (102, l.to_vec());
    }
    if let Some(n) = b.refuses(e) {
        return (n, l.to_vec());
    }
    let at = b.listing.iter().position(|f| order(b.pin, e, f) == Ordering::Less).unwrap_or(b.listing.len());
    b.listing.insert(at, *e);
    b.past.remove(0);
    (0, b.doubles())
}

fn place(l: &[f64], i: u64, out: &[f64]) -> (u32, Vec<f64>) {
    if l.len() != LEN || out.len() != 1 {
        return (100, out.to_vec());
    }
    let Some(b) = Board::read(l) else { return (101, out.to_vec()) };
    match usize::try_from(i).ok().and_then(|i| b.listing.get(i)) {
        Some(e) => (0, vec![f64::from(e.shot)]),
        None => (26, vec![0.0]),
    }
}

#[derive(Default)]
pub struct Counts {
    answers: std::collections::BTreeMap<(&'static str, u32), u64>,
    ties: u64,
    filled: u64,
    orders: u64,
}

impl Counts {
    fn merge(&mut self, o: Self) {
        for (k, n) in o.answers {
            *self.answers.entry(k).or_default() += n;
        }
        self.ties += o.ties;
        self.filled += o.filled;
        self.orders += o.orders;
    }
}

fn same(a: &[f64], b: &[f64]) -> bool {
    a.len() == b.len() && a.iter().zip(b).all(|(x, y)| x.to_bits() == y.to_bits())
}

/// A lent buffer, with guard doubles past its length.
fn lent(l: &[f64], r: &mut Rng) -> Vec<f64> {
    let mut v = l.to_vec();
    v.extend((0..GUARD).map(|_| f64::from_bits(r.next())));
    v
}

#[cfg(has_dimple_board_enter)]
mod doors {
    use super::*;
    fn told(
        what: &'static str,
        c: &mut Counts,
        (got, after): (u32, Vec<f64>),
        (want, l): (u32, Vec<f64>),
        guard: &[f64],
        how: String,
    ) {
        *c.answers.entry((what, want)).or_default() += 1;
        let expected = [&l[..], guard].concat();
        if got != want || !same(&after, &expected) {
            let at = (0..after.len()).find(|&i| after[i].to_bits() != expected[i].to_bits());
            crate::different(what, format!("{how}: answer {got} expected {want}, first difference at {at:?}"), &[]);
        }
    }
    pub fn new(pin: (f64, f64), l: &mut Vec<f64>, r: &mut Rng, c: &mut Counts) {
        let mut v = lent(l, r);
        let guard = v[l.len()..].to_vec();
        let got = unsafe { dimple_board_new(pin.0, pin.1, v.as_mut_ptr(), l.len()) };
        let want = if l.len() != LEN {
            (100, l.clone())
        } else if near(pin.0, 100_000.0) && near(pin.1, 100_000.0) {
            (0, Board::empty(pin).doubles())
        } else {
            (9, Board::empty((0.0, 0.0)).doubles())
        };
        *l = want.1.clone();
        told("board_new", c, (got, v), want, &guard, format!("{pin:?}"));
    }
    pub fn enter(l: &mut Vec<f64>, e: &Entry, r: &mut Rng, c: &mut Counts) -> u32 {
        let mut v = lent(l, r);
        let guard = v[l.len()..].to_vec();
        let got = unsafe { dimple_board_enter(v.as_mut_ptr(), l.len(), e.bay, e.shot, e.termination, e.contacts, e.x, e.z) };
        let want = super::enter(l, e);
        *l = want.1.clone();
        let answer = want.0;
        told("board_enter", c, (got, v), want, &guard, format!("{e:?}"));
        answer
    }
    pub fn place(l: &[f64], i: u64, len: usize, r: &mut Rng, c: &mut Counts) {
        let out: Vec<f64> = (0..len).map(|_| f64::from_bits(r.next())).collect();
        let mut v = lent(&out, r);
        let guard = v[len..].to_vec();
        let mut b = lent(l, r);
        let kept = b.clone();
        let got = unsafe { dimple_board_place(b.as_mut_ptr(), l.len(), i, v.as_mut_ptr(), len) };
        if !same(&b, &kept) {
            crate::different("board_place", "it wrote the board".into(), &[]);
        }
        told("board_place", c, (got, v), super::place(l, i, &out), &guard, format!("place {i}"));
    }
}

/// Without the doors there is nothing to compare.
#[cfg(not(has_dimple_board_enter))]
mod doors {
    use super::*;
    fn none() {
        println!("libcapi, or its board, was not there when this was built");
        std::process::exit(2);
    }
    pub fn new(_: (f64, f64), _: &mut Vec<f64>, _: &mut Rng, _: &mut Counts) {
        none()
    }
    pub fn enter(_: &mut Vec<f64>, _: &Entry, _: &mut Rng, _: &mut Counts) -> u32 {
        none();
        0
    }
    pub fn place(_: &[f64], _: u64, _: usize, _: &mut Rng, _: &mut Counts) {
        none()
    }
}

const ODD: [f64; 20] = [
    f64::NAN,
    f64::INFINITY,
    f64::NEG_INFINITY,
    -0.0,
    0.0,
    0.5,
    -1.0,
    1.0,
    3.0,
    4.0,
    7.0,
    8.0,
    255.0,
    256.0,
    257.0,
    4294967295.0,
    4294967296.0,
    1e6,
    1e300,
    5e-324,
];

fn random_pin(r: &mut Rng) -> (f64, f64) {
    let one = |r: &mut Rng| match r.below(6) {
        0 => r.pick(&[100_000.0, -100_000.0, 0.0, -0.0]),
        1 => r.range(-100_000.0, 100_000.0),
        _ => r.range(-20.0, 20.0).round(),
    };
    (one(r), one(r))
}

/// Spots on small circles about the pin, so that keys are level often; at times a spot at the range's end, past it, or no number.
fn random_spot(r: &mut Rng, pin: f64) -> f64 {
    match r.below(60) {
        0 => r.pick(&[1e6, -1e6, up(1e6), down(-1e6), f64::NAN, f64::INFINITY, -0.0]),
        1..=4 => r.range(-1e6, 1e6),
        5..=14 => r.range(-10.0, 10.0),
        _ => pin + r.sign() * r.below(3) as f64,
    }
}

fn random_entry(r: &mut Rng, pin: (f64, f64), shots: usize) -> Entry {
    Entry {
        shot: if r.chance(50) { r.pick(&[0, u32::MAX, 1 << 31]) } else { r.below(shots) as u32 },
        bay: if r.chance(60) { r.pick(&[8, 9, u32::MAX]) } else { r.below(8) as u32 },
        termination: if r.chance(60) { r.pick(&[0, 4, u32::MAX]) } else { r.pick(&[1, 1, 2, 3]) },
        contacts: if r.chance(40) { r.pick(&[0, u32::MAX]) } else { 1 + r.below(3) as u32 },
        x: random_spot(r, pin.0),
        z: random_spot(r, pin.1),
    }
}

fn garbage(r: &mut Rng, len: usize) -> Vec<f64> {
    (0..len).map(|_| f64::from_bits(r.next())).collect()
}

/// From a new board: after each call the listing is what was accepted, sorted.
fn chain(r: &mut Rng, c: &mut Counts) -> Vec<f64> {
    let pin = random_pin(r);
    let mut l = garbage(r, LEN);
    doors::new(pin, &mut l, r, c);
    let mut accepted: Vec<Entry> = vec![];
    let calls = if r.chance(4) { 700 } else { r.below(120) };
    let shots = r.pick(&[20, 300, 3000]);
    // one bay busier than the others in some chains, so that it fills while they go on
    let busy = r.pick(&[None, Some(r.0 as u32 % 8)]);
    for _ in 0..calls {
        let mut e = random_entry(r, pin, shots);
        if let Some(bay) = busy
            && r.chance(2)
        {
            e.bay = bay;
        }
        let used = accepted.iter().filter(|f| f.bay == e.bay).count();
        match doors::enter(&mut l, &e, r, c) {
            0 => accepted.push(e),
            24 if used < 32 => crate::different("board", "a bay with entries left was turned back by 24".into(), &[]),
            _ => {}
        }
        let mut listing = accepted.clone();
        listing.sort_by(|e, f| order(pin, e, f));
        let past = vec![EMPTY; 256 - listing.len()];
        if !same(&Board { pin, listing, past }.doubles(), &l) {
            crate::different("board", "the listing is not what was accepted, sorted".into(), &[]);
        }
        if r.chance(4) {
            let i = if r.chance(10) { r.next() } else { r.below(accepted.len() + 3) as u64 };
            doors::place(&l, i, 1, r, c);
        }
    }
    c.filled += u64::from(accepted.len() == 256);
    for i in 1..accepted.len() {
        c.ties += accepted[..i]
            .iter()
            .any(|f| order(pin, &Entry { shot: 0, ..accepted[i] }, &Entry { shot: 0, ..*f }) == Ordering::Equal)
            as u64;
    }
    l
}

/// Calls that no test can turn back, with ties at every level, in two random orders: every call is answered by 0, and the whole buffers are equal.
fn permuted(r: &mut Rng, c: &mut Counts) {
    let pin = random_pin(r);
    let mut set: Vec<Entry> = vec![];
    let size = r.pick(&[4, 20, 100, 256]);
    for shot in 0..size {
        let e = random_entry(r, pin, 1);
        let spot = |x: f64, p: f64| if near(x, 1e6) { x } else { p };
        let termination = if (1..=3).contains(&e.termination) { e.termination } else { 1 };
        set.push(Entry { shot: shot * 7 % 257, bay: shot % 8, termination, x: spot(e.x, pin.0), z: spot(e.z, pin.1), ..e });
    }
    let mut first: Option<Vec<f64>> = None;
    for _ in 0..2 {
        for i in (1..set.len()).rev() {
            let j = r.below(i + 1);
            set.swap(i, j);
        }
        let mut l = garbage(r, LEN);
        doors::new(pin, &mut l, r, c);
        for e in &set {
            if doors::enter(&mut l, e, r, c) != 0 {
                crate::different("board", format!("{e:?} was turned back"), &[]);
            }
        }
        match &first {
            None => first = Some(l),
            Some(f) if same(f, &l) => c.orders += 1,
            Some(_) => crate::different("board", "two orders of entering list differently".into(), &[]),
        }
    }
}

/// A board with something changed, and every door on it.
fn damaged(r: &mut Rng, c: &mut Counts, mut l: Vec<f64>) {
    match r.below(8) {
        0 => l = garbage(r, LEN),
        1 => {
            let n = r.pick(&[0, 1, 2, 3, 771, 1027, 1283, LEN - 1, LEN + 1, LEN + WIDTH, 2000]);
            l.resize(n, 1.0);
        }
        2 => l[2] = r.below(260) as f64,
        3 => {
            let (i, j) = (3 + WIDTH * r.below(256), 3 + WIDTH * r.below(256));
            (0..WIDTH).for_each(|k| l.swap(i + k, j + k));
        }
        4 => {
            let at = 3 + WIDTH * r.below(l[2] as usize + 1).min(255) + r.below(WIDTH);
            l[at] = r.pick(&ODD);
        }
        5 => {
            // any listing, in no order, with repeats
            l[2] = r.below(257) as f64;
            for e in l[3..].chunks_mut(WIDTH) {
                e.copy_from_slice(&[
                    r.below(30) as f64,
                    r.below(8) as f64,
                    (1 + r.below(3)) as f64,
                    r.below(4) as f64,
                    r.range(-5.0, 5.0).round(),
                    r.range(-5.0, 5.0).round(),
                ]);
            }
        }
        _ => {
            for _ in 0..1 + r.below(3) {
                let at = r.below(LEN);
                l[at] = if r.chance(3) { f64::from_bits(l[at].to_bits() ^ (1 << r.below(64))) } else { r.pick(&ODD) };
            }
        }
    }
    for _ in 0..3 {
        let e = random_entry(r, (0.0, 0.0), 40);
        doors::enter(&mut l, &e, r, c);
        let len = if r.chance(5) { r.below(3) } else { 1 };
        let i = r.below(260) as u64;
        doors::place(&l, i, len, r, c);
    }
    if r.chance(3) {
        let pin = if r.chance(2) { (r.pick(&ODD), r.pick(&[1e5, up(1e5), -1e5, f64::NAN])) } else { random_pin(r) };
        doors::new(pin, &mut l, r, c);
    }
}

pub fn run(seed: u64, calls: u64, n: u64) {
    println!("board: seed {seed}, {calls} calls or more, {n} threads");
    let mut total = Counts::default();
    for c in crate::threads(n, |i| {
        let mut c = Counts::default();
        let mut r = Rng(seed.wrapping_mul(1000) + 900 + i);
        while c.answers.values().sum::<u64>() < calls / n {
            let l = chain(&mut r, &mut c);
            permuted(&mut r, &mut c);
            for _ in 0..8 {
                damaged(&mut r, &mut c, l.clone());
            }
        }
        c
    }) {
        total.merge(c);
    }
    for ((door, answer), n) in &total.answers {
        println!("{door:12} {answer:4} {n:10}");
    }
    let calls = total.answers.values().sum::<u64>();
    println!(
        "{calls} calls; {} accepted entries level with an earlier one but for the shot number; {} boards filled, 32 a bay",
        total.ties, total.filled
    );
    println!("{} sets entered in two orders", total.orders);
}
