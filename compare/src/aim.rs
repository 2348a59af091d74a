//! `dimple_aim` against paper 10 of document 02, told over the reference's whole settle: the model tries each landing of the grid on its own.

use super::{Lent, different, threads};
use crate::shots::*;
use dimple_ref::oracle::{self, CONTACT, Outcome, POINT, RESULT};

#[cfg(has_dimple_aim)]
unsafe extern "C" {
    fn dimple_aim(
        input: *const u8,
        input_len: usize,
        contacts: *mut f64,
        contacts_len: usize,
        points: *mut f64,
        points_len: usize,
        spot_x: f64,
        spot_z: f64,
        distance: f64,
        forward: u64,
        downward: u64,
        result: *mut f64,
        result_len: usize,
        landing: *mut f64,
        landing_len: usize,
    ) -> u32;
}

#[derive(Clone, Copy, Debug)]
struct Asked {
    spot: (f64, f64),
    distance: f64,
    forward: u64,
    downward: u64,
}

#[cfg(has_dimple_aim)]
fn lib_aim(input: &[u8], a: Asked, contacts: &mut [f64], points: &mut [f64], result: &mut [f64], landing: &mut [f64]) -> u32 {
    unsafe {
        dimple_aim(
            input.as_ptr(),
            input.len(),
            contacts.as_mut_ptr(),
            contacts.len(),
            points.as_mut_ptr(),
            points.len(),
            a.spot.0,
            a.spot.1,
            a.distance,
            a.forward,
            a.downward,
            result.as_mut_ptr(),
            result.len(),
            landing.as_mut_ptr(),
            landing.len(),
        )
    }
}

#[cfg(not(has_dimple_aim))]
fn lib_aim(_: &[u8], _: Asked, _: &mut [f64], _: &mut [f64], _: &mut [f64], _: &mut [f64]) -> u32 {
    println!("libcapi has no dimple_aim");
    std::process::exit(2);
}

/// The input with forward speed i and downward speed j.
fn with_speeds(input: &[u8], i: u64, j: u64) -> Vec<u8> {
    let mut b = input.to_vec();
    for (k, v) in [i as f64, -(j as f64), 0.0].into_iter().enumerate() {
        b[8 * (VEL + k)..8 * (VEL + k) + 8].copy_from_slice(&v.to_bits().to_le_bytes());
    }
    b
}

fn near(a: Asked, out: &Outcome) -> bool {
    let (dx, dz) = (out.rest[1] - a.spot.0, out.rest[3] - a.spot.1);
    dx * dx + dz * dz <= a.distance * a.distance
}

enum Says {
    Number(u32),
    Nothing,
    Found(Vec<u8>, Outcome),
}

/// 02's rule. The given landing's own settle says which of 12, 8 and 1 to 7 it meets.
fn model(input: &[u8], a: Asked, contacts_len: usize, points_len: usize) -> Says {
    let given = oracle::settle(input, contacts_len, points_len, false);
    if !given.accepted() {
        return Says::Number(given.answer);
    }
    let side_ok = |n: u64| n != 0 && n <= 32;
    let spot_ok = |c: f64| c.abs() <= 100_000.0;
    if !(side_ok(a.forward)
        && side_ok(a.downward)
        && a.distance >= 0.0
        && a.distance <= 10.0
        && spot_ok(a.spot.0)
        && spot_ok(a.spot.1))
    {
        return Says::Number(35);
    }
    for i in 1..=a.forward {
        for j in 1..=a.downward {
            let tried = with_speeds(input, i, j);
            let out = oracle::settle(&tried, contacts_len, points_len, false);
            if out.answer == 0 && out.termination == 1 && near(a, &out) {
                return Says::Found(tried, out);
            }
        }
    }
    Says::Nothing
}

#[derive(Default)]
struct Seen {
    found: u64,
    at_edge: u64,
    past_edge: u64,
    nothing: u64,
    not_first: u64,
    numbers: std::collections::BTreeMap<u32, u64>,
}

fn check(r: &mut Rng, seen: &mut Seen, input: &[u8], a: Asked, contacts_len: usize, points_len: usize) {
    let result_len = if r.chance(10) { r.below(24) } else { RESULT };
    let landing_len = if r.chance(60) { r.below(14) } else { 10 };
    let mut contacts = Lent::new(r, contacts_len);
    let mut points = Lent::new(r, points_len);
    let mut result = Lent::new(r, result_len);
    let mut landing = Lent::new(r, landing_len);
    let mut want = 100;
    if landing_len == 10 {
        landing.expected[..10].fill(0.0);
        let (c, p) = (&mut contacts.expected[..contacts_len], &mut points.expected[..points_len]);
        let zero = Outcome {
            answer: 0,
            termination: 0,
            steps: 0,
            evaluations: Default::default(),
            rest: [0.0; 10],
            rect: [0.0; 4],
            contacts: Vec::new(),
            points: Vec::new(),
            looks: Vec::new(),
        };
        match model(input, a, contacts_len, points_len) {
            Says::Number(n) => {
                want = n;
                oracle::write_settle(&Outcome { answer: n, ..zero }, c, p, &mut result.expected[..result_len]);
            }
            Says::Nothing => {
                want = 0;
                seen.nothing += 1;
                oracle::write_settle(&zero, c, p, &mut result.expected[..result_len]);
            }
            Says::Found(tried, out) => {
                want = 0;
                seen.found += 1;
                for k in 0..10 {
                    let at = 8 * (TIME + k);
                    landing.expected[k] = f64::from_bits(u64::from_le_bytes(tried[at..at + 8].try_into().unwrap()));
                }
                seen.not_first += u64::from(landing.expected[4] != 1.0 || landing.expected[5] != -1.0);
                oracle::write_settle(&out, c, p, &mut result.expected[..result_len]);
            }
        }
    }
    *seen.numbers.entry(want).or_default() += 1;
    let got = lib_aim(
        input,
        a,
        &mut contacts.given[..contacts_len],
        &mut points.given[..points_len],
        &mut result.given[..result_len],
        &mut landing.given[..landing_len],
    );
    if got != want {
        different("aim", format!("answer {got}, expected {want}, {a:?} (lists {contacts_len}, {points_len})"), input);
        return;
    }
    for (name, l) in [("landing", &landing), ("result", &result), ("contacts", &contacts), ("points", &points)] {
        if let Some(i) = l.differs() {
            different("aim", format!("{name} {}, {a:?} (answer {got}, lists {contacts_len}, {points_len})", l.shown(i)), input);
            return;
        }
    }
}

/// The least d with d * d >= s, by value.
fn least_distance(s: f64) -> f64 {
    let mut d = s.sqrt();
    while d * d < s {
        d = up(d);
    }
    while d > 0.0 && down(d) * down(d) >= s {
        d = down(d);
    }
    d
}

fn one(r: &mut Rng, seen: &mut Seen, side: u64) {
    let mut s = if r.chance(3) { random_shot(r) } else { bench() };
    if s.areas.len() > 16 && !r.chance(10) {
        s.areas.truncate(16);
    }
    if !r.chance(10) {
        s.set(DT, r.range(0.004, 0.01));
    }
    s.head[STEP_LIMIT] = if r.chance(6) { 1 + r.below(400) as u64 } else { 4000 };
    if r.chance(6) {
        s.head[MAX_IMPACTS] = r.below(4) as u64;
    }
    if r.chance(6) {
        s.set(MAX_TIME, r.range(0.0, 3.0));
    }
    let (forward, downward) = (1 + r.below(side as usize) as u64, 1 + r.below(side as usize) as u64);
    let records = if r.chance(6) { (r.below(5), r.below(200)) } else { (64, 4000) };
    let (contacts_len, points_len) = (CONTACT * records.0, POINT * records.1);
    let mut input = s.bytes();
    // the spot where one landing of the grid, or one just past it, comes to lie, moved a little
    let past = u64::from(r.chance(6));
    let (i, j) = (1 + r.below((forward + past) as usize) as u64, 1 + r.below((downward + past) as usize) as u64);
    let out = oracle::settle(&with_speeds(&input, i, j), contacts_len, points_len, false);
    let by = if r.chance(3) { 0.0 } else { r.scale(1e-9, 2.0) };
    let spot = (out.rest[1] + by * r.range(-1.0, 1.0), out.rest[3] + by * r.range(-1.0, 1.0));
    let (dx, dz) = (out.rest[1] - spot.0, out.rest[3] - spot.1);
    let edge = least_distance(dx * dx + dz * dz);
    let mut a = Asked { spot, distance: edge, forward, downward };
    match r.below(4) {
        0 => seen.at_edge += 1,
        1 if edge > 0.0 => {
            seen.past_edge += 1;
            a.distance = down(edge);
        }
        2 => a.distance = r.scale(1e-3, 10.0),
        _ => a.distance = edge * r.range(0.5, 2.0),
    }
    let (mut nc, mut np) = (contacts_len, points_len);
    if r.chance(8) {
        match r.below(4) {
            0 => a.forward = r.pick(&[0, 32, 33, u64::MAX]).min(if r.chance(2) { side } else { u64::MAX }),
            1 => a.downward = r.pick(&[0, 33, 1 << 32, u64::MAX]),
            2 => a.distance = r.pick(&[-0.0, 10.0, up(10.0), -5e-324, f64::NAN, f64::INFINITY, -1.0]),
            _ => {
                let c = r.pick(&[100_000.0, up(100_000.0), -100_000.0, down(-100_000.0), f64::NAN, f64::NEG_INFINITY]);
                if r.chance(2) { a.spot.0 = c } else { a.spot.1 = c }
            }
        }
        if a.forward == 32 && side < 32 {
            a.downward = 1;
        }
    }
    if r.chance(40) {
        nc += r.below(CONTACT);
    }
    if r.chance(40) {
        np += r.below(POINT);
    }
    if r.chance(12) {
        change_field(r, &mut s);
        s.head[STEP_LIMIT] = s.head[STEP_LIMIT].min(if s.head[STEP_LIMIT] > 2_000_000 { u64::MAX } else { 4000 });
        input = s.bytes();
    }
    if r.chance(20) {
        damage(r, &mut input);
    }
    check(r, seen, &input, a, nc, np);
}

pub fn run(seed: u64, cases: u64, large: u64, n: u64) {
    println!("aim: seed {seed}, {cases} grids of up to 5 x 5, {large} of up to 32 x 32, {n} threads");
    let parts = threads(n, |k| {
        let mut seen = Seen::default();
        let mut r = Rng(seed.wrapping_mul(1000) + 300 + k);
        for _ in 0..cases / n {
            one(&mut r, &mut seen, 5);
        }
        for _ in 0..large / n {
            one(&mut r, &mut seen, 32);
        }
        seen
    });
    let mut all = Seen::default();
    for p in parts {
        all.found += p.found;
        all.at_edge += p.at_edge;
        all.past_edge += p.past_edge;
        all.nothing += p.nothing;
        all.not_first += p.not_first;
        for (k, v) in p.numbers {
            *all.numbers.entry(k).or_default() += v;
        }
    }
    println!("found {} (not the grid's first: {}), none {}", all.found, all.not_first, all.nothing);
    println!("distance least that holds a landing's spot {}, one double less {}", all.at_edge, all.past_edge);
    println!("answers {:?}", all.numbers);
}
