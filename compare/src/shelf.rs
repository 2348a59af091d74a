//! The shelf's doors against a map, written from 02's paper 9: names to states, and this file's own reading of the 368 doubles.

use crate::shots::Rng;
use crate::{different, threads};
use std::collections::BTreeMap;

#[cfg(has_dimple_shelf_save)]
unsafe extern "C" {
    fn dimple_shelf_new(shelf: *mut f64, shelf_len: usize) -> u32;
    fn dimple_shelf_save(
        shelf: *mut f64,
        shelf_len: usize,
        name: *const u8,
        name_len: usize,
        state: *const f64,
        state_len: usize,
    ) -> u32;
    fn dimple_shelf_return(
        shelf: *const f64,
        shelf_len: usize,
        name: *const u8,
        name_len: usize,
        state: *mut f64,
        state_len: usize,
    ) -> u32;
    fn dimple_shelf_drop(shelf: *mut f64, shelf_len: usize, name: *const u8, name_len: usize) -> u32;
}

#[cfg(not(has_dimple_shelf_save))]
mod missing {
    fn none() -> u32 {
        println!("the shelf's doors were not there when this was built");
        std::process::exit(2);
    }
    type N = usize;
    pub unsafe fn dimple_shelf_new(_: *mut f64, _: N) -> u32 {
        none()
    }
    pub unsafe fn dimple_shelf_save(_: *mut f64, _: N, _: *const u8, _: N, _: *const f64, _: N) -> u32 {
        none()
    }
    pub unsafe fn dimple_shelf_return(_: *const f64, _: N, _: *const u8, _: N, _: *mut f64, _: N) -> u32 {
        none()
    }
    pub unsafe fn dimple_shelf_drop(_: *mut f64, _: N, _: *const u8, _: N) -> u32 {
        none()
    }
}
#[cfg(not(has_dimple_shelf_save))]
use missing::*;

const PLACE: usize = 23;
const SHELF: usize = 16 * PLACE;
const STATE: usize = 10;
/// Doubles past each lent list; they must stay.
const GUARD: usize = 3;

/// Names to the bits of states.
type Map = BTreeMap<Vec<u8>, [u64; STATE]>;

fn name_ok(name: &[u8]) -> bool {
    !name.is_empty() && name.len() <= 12 && name.iter().all(u8::is_ascii_uppercase)
}

/// 01: finite, magnitude ≤ 1,000,000.
fn state_ok(state: &[f64]) -> bool {
    state.iter().all(|x| x.is_finite() && x.abs() <= 1_000_000.0)
}

fn bits(state: &[f64]) -> [u64; STATE] {
    std::array::from_fn(|i| state[i].to_bits())
}

/// What the doubles hold; none if they are no shelf (101).
fn read(shelf: &[f64]) -> Option<Map> {
    let mut map = Map::new();
    for place in shelf.chunks(PLACE) {
        let length = (0..=12).find(|&n| place[0] == n as f64)?;
        let (within, past) = place[1..13].split_at(length);
        if !past.iter().all(|&b| b == 0.0) {
            return None;
        }
        let name = within.iter().map(|&b| (b'A'..=b'Z').find(|&c| b == f64::from(c))).collect::<Option<Vec<u8>>>()?;
        if length > 0 && (!state_ok(&place[13..]) || map.insert(name, bits(&place[13..])).is_some()) {
            return None;
        }
    }
    Some(map)
}

/// Whole numbers as such, and +0 past each name, as a shelf is written.
fn written_plainly(shelf: &[f64]) -> bool {
    shelf.chunks(PLACE).all(|p| p[..13].iter().all(|x| x.to_bits() == (*x as u8 as f64).to_bits()))
}

#[derive(Default)]
struct Counts {
    doors: [u64; 4],
    answers: BTreeMap<u32, u64>,
}

#[derive(Clone, Copy)]
enum Call {
    New,
    Save,
    Return,
    Drop,
}

/// Names that share beginnings, and bad ones.
fn name(r: &mut Rng, pool: usize) -> Vec<u8> {
    const STEMS: [&[u8]; 4] = [b"ABCDEFGHIJKLM", b"ABABABABABABA", b"ZZZZZZZZZZZZZ", b"AZAZAZAZAZAZA"];
    let mut n = match r.below(20) {
        0 => (0..r.below(14)).map(|_| r.next() as u8).collect(),
        1 => vec![r.pick(b"AZ@[az\0\xff"); r.below(14)],
        _ => {
            let stem = r.pick(&STEMS);
            stem[..1 + r.below(pool.min(stem.len() - 1))].to_vec()
        }
    };
    if r.chance(40) && !n.is_empty() {
        let at = r.below(n.len());
        n[at] = r.pick(b"@[AZ\0az \xff");
    }
    if r.chance(60) {
        n.push(b'A');
    }
    n
}

fn number(r: &mut Rng) -> f64 {
    const EDGES: [f64; 6] = [0.0, -0.0, 1_000_000.0, -1_000_000.0, 5e-324, -2.5];
    if r.chance(3) { r.pick(&EDGES) } else { r.range(-1e6, 1e6) }
}

fn state(r: &mut Rng) -> Vec<f64> {
    let mut s: Vec<f64> = (0..STATE).map(|_| number(r)).collect();
    if r.chance(12) {
        let at = r.below(STATE);
        s[at] = r.pick(&[f64::NAN, f64::INFINITY, f64::NEG_INFINITY, 1_000_000f64.next_up(), (-1_000_000f64).next_down(), 1e300]);
    }
    s
}

/// A lent list with its guard.
fn lent(mut list: Vec<f64>, r: &mut Rng) -> Vec<f64> {
    list.extend((0..GUARD).map(|_| f64::from_bits(r.next())));
    list
}

/// One or some doubles set to what a damaged shelf may hold, or a place copied over another.
fn damage(r: &mut Rng, shelf: &mut [f64]) {
    const ODD: [f64; 20] = [
        f64::NAN,
        f64::INFINITY,
        -0.0,
        0.0,
        0.5,
        -1.0,
        1.0,
        2.0,
        11.0,
        12.0,
        13.0,
        64.0,
        65.0,
        66.0,
        90.0,
        91.0,
        255.0,
        256.0,
        1e6,
        1000001.0,
    ];
    for _ in 0..1 + r.below(2) {
        let (p, q) = (r.below(16) * PLACE, r.below(16) * PLACE);
        match r.below(5) {
            0 => shelf.copy_within(q..q + PLACE, p),
            1 => shelf[p] = r.pick(&ODD),
            2 => shelf[p + 1 + r.below(12)] = r.pick(&ODD),
            3 => shelf[p + 13 + r.below(10)] = r.pick(&ODD),
            _ => shelf[p + r.below(PLACE)] = f64::from_bits(r.next()),
        }
    }
}

struct Trial {
    shelf: Vec<f64>,
    /// what calls left in the shelf; read anew after damage
    map: Option<Map>,
    /// no damage since the last new
    whole: bool,
}

impl Trial {
    /// What 02 says of this call; the map is changed.
    fn expected(&mut self, call: Call, name: &[u8], state: &[f64], right: bool) -> (u32, [u64; STATE]) {
        let zeros = [0; STATE];
        if !right {
            return (100, zeros);
        }
        if let Call::New = call {
            self.map = Some(Map::new());
            self.whole = true;
            return (0, zeros);
        }
        let Some(map) = &mut self.map else { return (101, zeros) };
        if !name_ok(name) {
            return (32, zeros);
        }
        match call {
            Call::Save if !state_ok(state) => (22, zeros),
            Call::Save if map.len() == 16 && !map.contains_key(name) => (33, zeros),
            Call::Save => {
                map.insert(name.to_vec(), bits(state));
                (0, zeros)
            }
            Call::Drop => (if map.remove(name).is_some() { 0 } else { 34 }, zeros),
            _ => map.get(name).map_or((34, zeros), |s| (0, *s)),
        }
    }

    fn step(&mut self, r: &mut Rng, pool: usize, saves: usize, c: &mut Counts) {
        let call = match r.below(100) {
            0 => Call::New,
            n if n < saves => Call::Save,
            n if n < saves + (100 - saves) / 2 => Call::Return,
            _ => Call::Drop,
        };
        let n = name(r, pool);
        let shelf_len = if r.chance(150) { r.pick(&[0, 1, 367, 369, 370]) } else { SHELF };
        let state_len = if r.chance(150) { r.pick(&[0, 1, 9, 11]) } else { STATE };
        let of_state = matches!(call, Call::Save | Call::Return);
        let mut given = state(r);
        if let Call::Return = call {
            given = (0..STATE).map(|_| f64::from_bits(r.next())).collect();
        }
        given = lent(given, r);
        let (before, given_before) = (self.shelf.clone(), given.clone());
        let right = shelf_len == SHELF && (!of_state || state_len == STATE);
        let (want, back) = self.expected(call, &n, &given[..STATE], right);
        let (s, g) = (self.shelf.as_mut_ptr(), given.as_mut_ptr());
        let got = unsafe {
            match call {
                Call::New => dimple_shelf_new(s, shelf_len),
                Call::Save => dimple_shelf_save(s, shelf_len, n.as_ptr(), n.len(), g, state_len),
                Call::Return => dimple_shelf_return(s, shelf_len, n.as_ptr(), n.len(), g, state_len),
                Call::Drop => dimple_shelf_drop(s, shelf_len, n.as_ptr(), n.len()),
            }
        };
        c.doors[call as usize] += 1;
        *c.answers.entry(got).or_default() += 1;
        let same = |a: &[f64], b: &[f64]| a.iter().zip(b).all(|(x, y)| x.to_bits() == y.to_bits());
        let changes = want == 0 && !matches!(call, Call::Return);
        let mut wrong = vec![];
        if got != want {
            wrong.push(format!("answer {got}, expected {want}"));
        }
        if !changes && !same(&self.shelf, &before) {
            wrong.push("the shelf was changed".to_string());
        }
        if changes && (read(&self.shelf[..SHELF]) != self.map || !same(&self.shelf[SHELF..], &before[SHELF..])) {
            wrong.push("the shelf does not hold the map".to_string());
        }
        if changes && self.whole && !written_plainly(&self.shelf[..SHELF]) {
            wrong.push("a length or a byte is not written as a whole number".to_string());
        }
        let mut expected = given_before;
        if let (Call::Return, true) = (call, want < 100) {
            expected[..STATE].copy_from_slice(&back.map(f64::from_bits));
        }
        if !same(&given, &expected) {
            wrong.push("the state's list".to_string());
        }
        if !wrong.is_empty() {
            let input: Vec<u8> = before.iter().chain(&given).flat_map(|x| x.to_le_bytes()).collect();
            different(
                ["shelf_new", "shelf_save", "shelf_return", "shelf_drop"][call as usize],
                format!("{wrong:?}, name {n:?}"),
                &input,
            );
            self.map = read(&self.shelf[..SHELF]);
        }
    }
}

fn part(seed: u64, calls: u64, c: &mut Counts) {
    let mut r = Rng(seed);
    let mut made = 0;
    while made < calls {
        let shelf = lent((0..SHELF).map(|_| f64::from_bits(r.next())).collect(), &mut r);
        let mut t = Trial { map: read(&shelf[..SHELF]), shelf, whole: false };
        let (pool, saves) = (1 + r.below(12), r.pick(&[30, 50, 80]));
        let hurt = r.chance(2);
        assert_eq!(unsafe { dimple_shelf_new(t.shelf.as_mut_ptr(), SHELF) }, 0);
        t.expected(Call::New, &[], &[], true);
        for _ in 0..200 {
            if hurt && r.chance(25) {
                damage(&mut r, &mut t.shelf[..SHELF]);
                t.map = read(&t.shelf[..SHELF]);
                t.whole = false;
            }
            if t.map.is_none() && r.chance(4) {
                unsafe { dimple_shelf_new(t.shelf.as_mut_ptr(), SHELF) };
                t.expected(Call::New, &[], &[], true);
            }
            t.step(&mut r, pool, saves, c);
            made += 1;
        }
    }
}

pub fn run(seed: u64, calls: u64, n: u64) {
    println!("shelf: seed {seed}, {calls} calls, {n} threads");
    let mut total = Counts::default();
    for c in threads(n, |i| {
        let mut c = Counts::default();
        part(seed.wrapping_mul(1000) + 900 + i, calls / n, &mut c);
        c
    }) {
        (0..4).for_each(|i| total.doors[i] += c.doors[i]);
        for (a, k) in c.answers {
            *total.answers.entry(a).or_default() += k;
        }
    }
    let [new, save, ret, drop] = total.doors;
    println!("calls: new {new}, save {save}, return {ret}, drop {drop}");
    println!("answers: {}", total.answers.iter().map(|(a, k)| format!("{a}: {k}")).collect::<Vec<_>>().join(", "));
}
