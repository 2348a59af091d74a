//! Inputs of a settle: bench shots, random shots and courses, and changes of one.
#![allow(dead_code)]

use dimple_ref::added::{Hit, take_hits};
use dimple_ref::oracle::{self, CONTACT, HEAD, MOST, Outcome, POINT};

/// splitmix64
pub struct Rng(pub u64);

impl Rng {
    pub fn next(&mut self) -> u64 {
        self.0 = self.0.wrapping_add(0x9e37_79b9_7f4a_7c15);
        let mut z = self.0;
        z = (z ^ (z >> 30)).wrapping_mul(0xbf58_476d_1ce4_e5b9);
        z = (z ^ (z >> 27)).wrapping_mul(0x94d0_49bb_1331_11eb);
        z ^ (z >> 31)
    }
    pub fn below(&mut self, n: usize) -> usize {
        (self.next() % n as u64) as usize
    }
    pub fn chance(&mut self, one_in: usize) -> bool {
        self.below(one_in) == 0
    }
    pub fn unit(&mut self) -> f64 {
        (self.next() >> 11) as f64 / (1u64 << 53) as f64
    }
    pub fn range(&mut self, lo: f64, hi: f64) -> f64 {
        lo + (hi - lo) * self.unit()
    }
    /// Log-uniform.
    pub fn scale(&mut self, lo: f64, hi: f64) -> f64 {
        (self.range(lo.ln(), hi.ln())).exp().clamp(lo, hi)
    }
    pub fn pick<T: Copy>(&mut self, of: &[T]) -> T {
        of[self.below(of.len())]
    }
    pub fn sign(&mut self) -> f64 {
        if self.chance(2) { 1.0 } else { -1.0 }
    }
}

pub fn up(x: f64) -> f64 {
    x.next_up()
}

pub fn down(x: f64) -> f64 {
    x.next_down()
}

// places of the 30 fields
pub const DT: usize = 0;
pub const STOP_SPEED: usize = 1;
pub const ROLL_THRESHOLD: usize = 2;
pub const MIN_HOP: usize = 3;
pub const MAX_TIME: usize = 4;
pub const MAX_IMPACTS: usize = 5;
pub const STEP_LIMIT: usize = 6;
pub const BALL: usize = 7;
pub const DENSITY: usize = 19;
pub const TIME: usize = 20;
pub const POS: usize = 21;
pub const VEL: usize = 24;
pub const SPIN: usize = 27;

pub const TOUR: [f64; 12] = [0.04593, 0.04267, 0.4, 0.295, 0.186, 0.85, 0.25, 0.203, 0.324, 0.115, 69_600.0, 106.0];

/// An accepted input before it is bytes: fields as bit patterns.
#[derive(Clone)]
pub struct Shot {
    pub head: [u64; 30],
    pub surfaces: Vec<[u64; 8]>,
    pub areas: Vec<[u64; 8]>,
}

pub fn surface(kind: u64, e: f64, mu_slide: f64, mu_roll: f64, law: u64, v_ref: f64, compliance: f64, pivot: f64) -> [u64; 8] {
    [kind, e.to_bits(), mu_slide.to_bits(), mu_roll.to_bits(), law, v_ref.to_bits(), compliance.to_bits(), pivot.to_bits()]
}

pub fn area(x: (f64, f64), z: (f64, f64), h0: f64, a: f64, b: f64, number: u64) -> [u64; 8] {
    [x.0.to_bits(), x.1.to_bits(), z.0.to_bits(), z.1.to_bits(), h0.to_bits(), a.to_bits(), b.to_bits(), number]
}

pub fn green() -> [u64; 8] {
    surface(1, 0.0, 0.40, 0.055, 1, 2.5, 1.0, 0.001)
}

pub fn fairway() -> [u64; 8] {
    surface(1, 0.0, 0.40, 0.12, 1, 2.5, 1.0, 0.001)
}

/// The most impacts that number 4 lets through, and the default: 02, paper 5.
const MOST_IMPACTS: u64 = 64;

/// A ball on a lively surface, without air: well over 64 rebounds, each a few steps.
fn bouncing() -> Shot {
    let mut s = bench().with(DT, 0.01).with(DENSITY, 0.0).with(MIN_HOP, 0.0).with(VEL + 1, -0.3).with_word(STEP_LIMIT, 2000);
    s.surfaces = vec![surface(0, 0.99, 0.4, 0.1, 0, 1.0, 0.0, 0.0)];
    s
}

/// Document 01's S, with the default of 02's paper 5.
pub fn bench() -> Shot {
    let mut s = Shot { head: [0; 30], surfaces: vec![green()], areas: Vec::new() };
    s.set(DT, 0.001);
    s.set(STOP_SPEED, 0.01);
    s.set(ROLL_THRESHOLD, 0.01);
    s.set(MIN_HOP, 0.005);
    s.set(MAX_TIME, 120.0);
    s.head[MAX_IMPACTS] = MOST_IMPACTS;
    s.head[STEP_LIMIT] = 1000;
    for (i, b) in TOUR.iter().enumerate() {
        s.set(BALL + i, *b);
    }
    s.set(DENSITY, 1.225);
    s
}

impl Shot {
    pub fn set(&mut self, field: usize, x: f64) {
        self.head[field] = x.to_bits();
    }
    pub fn get(&self, field: usize) -> f64 {
        f64::from_bits(self.head[field])
    }
    pub fn with(mut self, field: usize, x: f64) -> Self {
        self.set(field, x);
        self
    }
    pub fn with_word(mut self, field: usize, x: u64) -> Self {
        self.head[field] = x;
        self
    }
    pub fn with3(mut self, field: usize, v: [f64; 3]) -> Self {
        for i in 0..3 {
            self.set(field + i, v[i]);
        }
        self
    }
    pub fn sheet(&self) -> Vec<u8> {
        let s = self.surfaces.len() as u32;
        let mut out = Vec::new();
        for w in [s, 16, self.areas.len() as u32, 16 + 64 * s] {
            out.extend_from_slice(&w.to_le_bytes());
        }
        for r in self.surfaces.iter().chain(&self.areas) {
            for w in r {
                out.extend_from_slice(&w.to_le_bytes());
            }
        }
        out
    }
    pub fn bytes(&self) -> Vec<u8> {
        let mut out = Vec::with_capacity(HEAD);
        for w in self.head {
            out.extend_from_slice(&w.to_le_bytes());
        }
        out.extend(self.sheet());
        out
    }
}

pub fn random_surface(r: &mut Rng) -> [u64; 8] {
    match r.below(6) {
        0 => green(),
        1 => fairway(),
        _ => {
            let kind = r.below(2) as u64;
            let e = r.pick(&[0.0, 0.2, 0.5, 0.8, 1.0]) * r.pick(&[1.0, r.0 as f64 / u64::MAX as f64]);
            let law = r.below(3) as u64;
            let v_ref = match r.below(6) {
                0 => 0.01,
                1 => r.scale(0.01, 0.1),
                _ => r.scale(0.3, 20.0),
            };
            let mu_slide = r.pick(&[0.0, 0.05, 0.2, 0.4, 0.4, 1.0, 10.0]);
            let mu_roll = r.pick(&[0.0, 0.01, 0.055, 0.12, 0.12, 0.5, 3.0]);
            let compliance = r.pick(&[0.0, 0.5, 1.0, 1.0, 2.0, 10.0]);
            let pivot = r.pick(&[0.0, 0.001, 0.001, 0.01, 1.0]);
            surface(kind, e, mu_slide, mu_roll, law, v_ref, compliance, pivot)
        }
    }
}

fn slope(r: &mut Rng) -> f64 {
    match r.below(8) {
        0 => 0.0,
        1 => -0.0,
        2 => r.range(-1.0, 1.0),
        3 => r.range(-4.0, 4.0),
        _ => r.range(-0.25, 0.25),
    }
}

/// A random course around the landing's spot and along its way.
pub fn random_course(r: &mut Rng, s: &mut Shot) {
    s.surfaces = (0..r.pick(&[1, 1, 2, 3, 16])).map(|_| random_surface(r)).collect();
    s.areas.clear();
    let many = match r.below(60) {
        0 => 512,
        1..=18 => 0,
        19..=34 => 1,
        _ => 2 + r.below(15),
    };
    let n = s.surfaces.len();
    let (x0, z0) = (s.get(POS), s.get(POS + 2));
    let dir = if s.get(VEL) < 0.0 { -1.0 } else { 1.0 };
    if many == 1 || r.chance(3) {
        // patches laid across the way, with or without jumps in height, then the rest anywhere
        let mut x = x0 - dir * r.range(0.0, 3.0);
        let mut height = r.pick(&[0.0, 0.0, 0.3, -0.2, 5.0]);
        for _ in 0..many {
            let len = r.pick(&[0.05, 0.5, 2.0, 10.0, 50.0]) * r.range(0.5, 1.5);
            let a = slope(r);
            let b = if r.chance(2) { 0.0 } else { slope(r) };
            let far = (x + dir * len).clamp(-100_000.0, 100_000.0);
            x = x.clamp(-100_000.0, 100_000.0);
            let h0 = (height - a * x - b * z0).clamp(-1000.0, 1000.0);
            let z = if r.chance(3) { (z0 - r.range(0.0, 3.0), z0 + r.range(0.0, 3.0)) } else { (z0 - 60.0, z0 + 60.0) };
            let z = (z.0.clamp(-100_000.0, 100_000.0), z.1.clamp(-100_000.0, 100_000.0));
            s.areas.push(area((x.min(far), x.max(far)), z, h0, a, b, r.below(n) as u64));
            height = h0 + a * far + b * z0;
            if r.chance(2) {
                height += r.pick(&[0.01, -0.01, 0.1, -0.1, 0.5, -0.5, 3.0, -3.0]);
            }
            x = far;
        }
    } else {
        for _ in 0..many {
            let c = (x0 + dir * r.range(-2.0, 30.0), z0 + r.range(-5.0, 5.0));
            let (wx, wz) = (r.scale(0.01, 40.0), r.scale(0.01, 40.0));
            let k = |v: f64| v.clamp(-100_000.0, 100_000.0);
            let h0 = r.range(-0.5, 0.5);
            let (a, b) = (slope(r), slope(r));
            let h0 = if r.chance(2) { h0 } else { (h0 - a * c.0 - b * c.1).clamp(-1000.0, 1000.0) };
            s.areas.push(area((k(c.0 - wx), k(c.0 + wx)), (k(c.1 - wz), k(c.1 + wz)), h0, a, b, r.below(n) as u64));
        }
    }
}

/// A plausible shot on a random course; the run stays short.
pub fn random_shot(r: &mut Rng) -> Shot {
    let mut s = bench();
    s.set(DT, r.pick(&[0.01, 0.01, 0.005, 0.002, 0.001, 0.0073]));
    if r.chance(8) {
        s.set(DT, r.scale(0.0005, 0.01));
    }
    s.set(STOP_SPEED, r.pick(&[0.01, 0.01, 0.0, 0.1, 1.0]));
    s.set(ROLL_THRESHOLD, r.pick(&[0.01, 0.01, 0.0, 0.2, 1.0]));
    s.set(MIN_HOP, r.pick(&[0.005, 0.005, 0.0, 0.001, 0.05, 1.0]));
    s.set(MAX_TIME, r.pick(&[0.0, 0.05, 0.5, 2.0, 5.0, 5.0, 10.0]) * r.range(0.5, 1.0));
    s.head[MAX_IMPACTS] = r.pick(&[64, 64, 64, 63, 0, 1, 2, 3, 5]);
    s.head[STEP_LIMIT] = r.pick(&[1000, 5000, 5000, 2_000_000, 1, 2, 10, 100]);
    if r.chance(3) {
        s.set(BALL, r.scale(0.02, 0.1));
        s.set(BALL + 1, r.scale(0.02, 0.1));
        s.set(BALL + 2, r.range(0.1, 1.0));
        for i in 3..6 {
            s.set(BALL + i, r.range(0.0, 1.0));
        }
        s.set(BALL + 6, r.scale(0.001, 10.0));
        s.set(BALL + 7, r.range(0.0, 1.0));
        s.set(BALL + 8, r.range(0.0, 1.0));
        s.set(BALL + 9, r.scale(0.001, 10.0));
        s.set(BALL + 10, r.range(0.0, 200_000.0));
        s.set(BALL + 11, r.scale(1.0, 1e5));
    }
    s.set(DENSITY, r.pick(&[1.225, 1.225, 1.225, 0.0, 0.0, -0.0, 1.0, 10.0]));
    s.set(TIME, r.pick(&[0.0, 0.0, 6.5, 100_000.0, -0.0]));
    let far = if r.chance(12) { 100_000.0 } else { 100.0 };
    s.set(POS, r.range(-far, far));
    s.set(POS + 1, r.pick(&[0.0, 0.0, -0.0, 0.2, 1.0, -0.1, 5.0]));
    s.set(POS + 2, r.range(-far, far));
    if r.chance(3) {
        s = s.with3(POS, [0.0, 0.0, 0.0]);
    }
    let fast = r.pick(&[0.0, 0.3, 1.0, 3.0, 3.0, 10.0, 30.0, 60.0]);
    s.set(VEL, fast * r.range(-0.3, 1.0));
    s.set(VEL + 1, r.pick(&[0.0, -0.0, -0.05, -0.5, -2.0, -5.0, -10.0, -30.0, 2.0]) * r.range(0.5, 1.5));
    s.set(VEL + 2, if r.chance(2) { 0.0 } else { 0.3 * fast * r.range(-1.0, 1.0) });
    let w = r.pick(&[0.0, 1e-11, 10.0, 100.0, 300.0, 1000.0, 5000.0]);
    let axis = [r.range(-1.0, 1.0), r.range(-1.0, 1.0), r.range(-1.0, 1.0)];
    s = s.with3(SPIN, [w * axis[0], w * axis[1], w * axis[2]]);
    if r.chance(5) {
        s = s.with3(SPIN, [0.0, 0.0, w]);
    }
    if r.chance(10) {
        // rolling without slip from the start
        let radius = s.get(BALL + 1) / 2.0;
        let (vx, vz) = (s.get(VEL), s.get(VEL + 2));
        s = s.with3(SPIN, [vz / radius, 0.0, -vx / radius]).with(VEL + 1, 0.0);
        for i in 0..3 {
            let x = s.get(SPIN + i).clamp(-5000.0, 5000.0);
            s.set(SPIN + i, x);
        }
    }
    random_course(r, &mut s);
    if s.areas.len() == 512 {
        s.set(MAX_TIME, s.get(MAX_TIME) * 0.2);
    }
    s
}

/// A shot whose flight can leave every bound: a light, large ball in dense air with strong lift.
pub fn wild_shot(r: &mut Rng) -> Shot {
    let mut s = random_shot(r);
    s.set(DT, 0.01);
    s.set(MAX_TIME, r.pick(&[1.0, 5.0, 20.0]));
    s.head[STEP_LIMIT] = 3000;
    s.set(BALL, r.scale(0.001, 0.01));
    s.set(BALL + 1, r.scale(0.05, 0.5));
    for i in [3, 4, 5, 7, 8] {
        s.set(BALL + i, r.pick(&[0.0, 1.0, 10.0]));
    }
    s.set(DENSITY, r.pick(&[1.225, 10.0, 10.0]));
    s.set(VEL, r.range(-200.0, 200.0));
    s.set(VEL + 1, r.range(-200.0, 20.0));
    s.set(VEL + 2, r.range(-200.0, 200.0));
    if r.chance(2) {
        s.areas.clear();
    }
    s
}

/// Lift without drag that turns the ball by about three radians a step: the speed grows from step to
/// step until the ball, landing high above the ground, meets it at some 100,000 m/s.
pub fn spiral(r: &mut Rng) -> Shot {
    let mut s = bench();
    s.set(DT, 0.01);
    s.head[STEP_LIMIT] = 3000;
    let radius = r.range(0.05, 0.25);
    s.set(BALL + 1, 2.0 * radius);
    for (i, x) in [(3, 0.0), (4, 0.0), (5, 0.0), (6, 1.0), (7, 10.0), (8, 10.0), (9, 10.0)] {
        s.set(BALL + i, x);
    }
    s.set(BALL + 2, r.range(0.1, 1.0));
    let density = r.pick(&[1.0, 1.225, 3.0]);
    s.set(DENSITY, density);
    let turn = r.range(2.8, 3.6) / 0.01;
    let w = r.range(300.0, 5000.0);
    let mass = radius * w * 0.5 * density * std::f64::consts::PI * radius * radius / turn;
    s.set(BALL, mass.clamp(0.001, 1.0));
    s.surfaces = vec![random_surface(r)];
    if r.chance(2) {
        s.areas = vec![area((-100_000.0, 100_000.0), (-100_000.0, 100_000.0), 0.0, slope(r), slope(r), 0)];
    }
    let y = r.scale(1000.0, 20_000.0);
    let axis = r.range(-0.3, 0.3);
    s.with3(POS, [r.pick(&[0.0, 99_000.0]), y, 0.0])
        .with3(VEL, [r.range(-200.0, 200.0), r.range(1.0, 200.0), 0.0])
        .with3(SPIN, [axis * w, 0.0, w * (1.0 - axis * axis).sqrt() * r.sign()])
}

/// A frictionless ground with a small ball: speeds and spins that grow on long slopes.
pub fn long_slope(r: &mut Rng) -> Shot {
    let mut s = bench();
    let a = r.range(1.0, 4.0) * r.sign();
    s.set(DT, 0.01);
    s.set(MAX_TIME, 600.0);
    s.head[STEP_LIMIT] = 60_000;
    s.set(BALL + 1, r.pick(&[0.005, 0.5]));
    s.set(DENSITY, 0.0);
    s.surfaces = vec![surface(0, 0.0, r.pick(&[0.0, 0.001, 0.4, 10.0]), 0.0, 0, 1.0, 0.0, 0.0)];
    s.areas = vec![area((-100_000.0, 100_000.0), (-100_000.0, 100_000.0), 0.0, a, r.pick(&[0.0, a]), 0)];
    let x = 100_000.0 * a.signum();
    s.with3(POS, [x, r.range(0.0, 1.0), r.pick(&[0.0, x])]).with3(VEL, [-200.0 * a.signum(), -200.0, 0.0])
}

/// A random field of the input with a value at, just inside or just outside an end of its range, or special.
pub fn edge_value(r: &mut Rng, lo: f64, hi: f64) -> f64 {
    match r.below(14) {
        0 => lo,
        1 => hi,
        2 => up(lo),
        3 => down(hi),
        4 => down(lo),
        5 => up(hi),
        6 => f64::NAN,
        7 => f64::INFINITY,
        8 => f64::NEG_INFINITY,
        9 => 0.0,
        10 => -0.0,
        11 => f64::from_bits(r.next()),
        12 => f64::from_bits(0xfff0_0000_0000_0001 | (r.next() >> 13)),
        _ => r.range(lo, hi),
    }
}

/// Ranges of the head's f64 fields (max_impacts and step_limit apart).
pub fn head_range(field: usize) -> (f64, f64) {
    match field {
        DT => (0.0001, 0.01),
        1..=3 => (0.0, 1.0),
        MAX_TIME => (0.0, 600.0),
        7 => (0.001, 1.0),
        8 => (0.005, 0.5),
        9 => (0.1, 1.0),
        10..=12 | 14 | 15 => (0.0, 10.0),
        13 | 16 => (0.001, 10.0),
        17 => (0.0, 1e7),
        18 => (1.0, 1e7),
        19 => (0.0, 10.0),
        20 => (0.0, 100_000.0),
        21..=23 => (-100_000.0, 100_000.0),
        24..=26 => (-200.0, 200.0),
        _ => (-5000.0, 5000.0),
    }
}

pub fn surface_range(field: usize) -> (f64, f64) {
    match field {
        1 | 7 => (0.0, 1.0),
        5 => (0.01, 1000.0),
        _ => (0.0, 10.0),
    }
}

pub fn area_range(field: usize) -> (f64, f64) {
    match field {
        0..=3 => (-100_000.0, 100_000.0),
        4 => (-1000.0, 1000.0),
        _ => (-4.0, 4.0),
    }
}

/// Puts one edge value into a random field.
pub fn change_field(r: &mut Rng, s: &mut Shot) {
    let which = r.below(30 + 8 + 8);
    if which < 30 {
        match which {
            MAX_IMPACTS => s.head[which] = r.pick(&[0, 1, 63, 64, 65, 66, 200, 1000, u64::MAX, 1 << 63]),
            STEP_LIMIT => s.head[which] = r.pick(&[0, 1, 2, 2_000_000, 2_000_001, u64::MAX, 1 << 32]),
            _ => {
                let (lo, hi) = head_range(which);
                s.set(which, edge_value(r, lo, hi));
            }
        }
    } else if which < 38 {
        let f = which - 30;
        let i = r.below(s.surfaces.len());
        let (lo, hi) = surface_range(f);
        s.surfaces[i][f] = match f {
            0 => r.pick(&[0, 1, 2, u64::MAX, 1 << 32]),
            4 => r.pick(&[0, 1, 2, 3, u64::MAX, 1 << 32]),
            _ => edge_value(r, lo, hi).to_bits(),
        };
    } else {
        let f = which - 38;
        if s.areas.is_empty() {
            s.areas.push(area((-1.0, 1.0), (-1.0, 1.0), 0.0, 0.0, 0.0, 0));
        }
        let i = r.below(s.areas.len());
        let (lo, hi) = area_range(f);
        let n = s.surfaces.len() as u64;
        s.areas[i][f] = match f {
            7 => r.pick(&[0, n - 1, n, n + 1, u64::MAX, 1 << 32]),
            _ => edge_value(r, lo, hi).to_bits(),
        };
    }
}

/// Bit flips, truncation, extension, exchanged bytes.
pub fn damage(r: &mut Rng, bytes: &mut Vec<u8>) {
    for _ in 0..1 + r.below(3) {
        match r.below(5) {
            0 => {
                let n = r.below(bytes.len() + 1);
                bytes.truncate(n);
            }
            1 => {
                let n = r.below(70);
                for _ in 0..n {
                    bytes.push(r.next() as u8);
                }
            }
            2 if bytes.len() > 300 => {
                // the sheet's header
                let at = HEAD + r.below(16);
                bytes[at] = r.next() as u8 & r.next() as u8;
            }
            _ if !bytes.is_empty() => {
                let at = r.below(bytes.len());
                bytes[at] ^= 1 << r.below(8);
            }
            _ => {}
        }
    }
}

/// Changes a shot so that a limit or an edge meets what `ran` did: one less, equal, one more.
/// Answers the list lengths to lend, in records.
pub fn snap(r: &mut Rng, s: &mut Shot, ran: &Outcome, ample: (usize, usize)) -> (usize, usize) {
    let mut lend = ample;
    let one = |r: &mut Rng, n: u64| r.pick(&[n.saturating_sub(1), n, n + 1]);
    for _ in 0..1 + r.below(2) {
        match r.below(9) {
            0 => lend.0 = one(r, ran.contacts.len() as u64) as usize,
            1 => lend.1 = one(r, ran.points.len() as u64) as usize,
            2 => lend.1 = r.below(ran.points.len() + 2),
            3 => lend.0 = r.below(ran.contacts.len() + 2),
            4 => s.head[STEP_LIMIT] = one(r, ran.steps).max(1),
            5 => s.head[STEP_LIMIT] = 1 + r.below(ran.steps as usize + 2) as u64,
            6 => s.head[MAX_IMPACTS] = one(r, ran.contacts.len() as u64).min(MOST_IMPACTS),
            7 => {
                // max_time so that t_end meets a time of the run
                let t =
                    if !ran.points.is_empty() && r.chance(2) { ran.points[r.below(ran.points.len())][0] } else { ran.rest[0] };
                let t = match r.below(7) {
                    0 => t,
                    1 => up(t),
                    2 => down(t),
                    3 => t + 1e-9,
                    4 => t - 1e-9,
                    5 => t - 0.5 * s.get(DT),
                    _ => up(t + 1e-9),
                } - s.get(TIME);
                s.set(MAX_TIME, t.clamp(0.0, 600.0));
            }
            _ => {
                // a patch's edge at a spot that was looked at
                if !s.areas.is_empty() && !ran.looks.is_empty() {
                    let (x, z) = ran.looks[r.below(ran.looks.len())];
                    let i = r.below(s.areas.len());
                    let f = r.below(4);
                    let v = if f < 2 { x } else { z };
                    let v = match r.below(3) {
                        0 => v,
                        1 => up(v),
                        _ => down(v),
                    };
                    s.areas[i][f] = v.to_bits();
                    let (lo, hi) = (f64::from_bits(s.areas[i][f & 2]), f64::from_bits(s.areas[i][f | 1]));
                    if lo > hi && !r.chance(8) {
                        s.areas[i][f & 2] = hi.to_bits();
                        s.areas[i][f | 1] = lo.to_bits();
                    }
                }
            }
        }
    }
    lend
}

/// One call of settle; list lengths count doubles.
pub struct Case {
    pub what: &'static str,
    pub bytes: Vec<u8>,
    pub contacts: usize,
    pub points: usize,
}

impl Case {
    /// List lengths in records.
    pub fn new(what: &'static str, s: &Shot, records: (usize, usize)) -> Self {
        Self { what, bytes: s.bytes(), contacts: records.0 * CONTACT, points: records.1 * POINT }
    }
    pub fn of(what: &'static str, bytes: Vec<u8>, contacts: usize, points: usize) -> Self {
        Self { what, bytes, contacts, points }
    }
}

/// Lists of the program `settle`.
pub const PROGRAM: (usize, usize) = (64, 640);

/// Lists for most cases.
pub const AMPLE: (usize, usize) = (220, 1400);

/// A run of the reference alone with ample lists.
pub fn ample_run(s: &Shot, log: bool) -> Outcome {
    let out = oracle::settle(&s.bytes(), AMPLE.0 * CONTACT, AMPLE.1 * POINT, log);
    take_hits();
    out
}

/// Bench shots of document 01, starred and unstarred.
pub fn bench_cases() -> Vec<Case> {
    let down = bench().with(VEL + 1, -10.0);
    let mut list = vec![bench(), bench().with(MAX_TIME, 0.0)];
    for n in [0, 1, 2, 3] {
        list.push(down.clone().with_word(MAX_IMPACTS, n));
    }
    list.push(down.clone().with_word(STEP_LIMIT, 1));
    for (f, x) in [(BALL, 0.0), (DT, 0.0), (DENSITY, f64::NAN)] {
        list.push(bench().with(f, x));
    }
    // e at 20 and at the next double
    for v in [20.0, up(20.0)] {
        list.push(bench().with(VEL + 1, -v).with_word(MAX_IMPACTS, 1));
    }
    let mut out: Vec<Case> = list.iter().map(|s| Case::new("bench", s, PROGRAM)).collect();
    let mut bytes = bench().bytes();
    bytes.truncate(HEAD + 79);
    out.push(Case::of("bench, 79 bytes", bytes, 64 * CONTACT, 640 * POINT));
    out
}

/// Every sheet length from 0 to some hundred, with headers that fit some of them.
pub fn length_cases(r: &mut Rng) -> Vec<Case> {
    let mut out = Vec::new();
    for len in 0..600 {
        for surfaces in [1, 2, 4] {
            let mut s = bench().with(VEL + 1, -1.0).with_word(STEP_LIMIT, 20);
            s.surfaces = vec![green(); surfaces];
            s.areas = vec![area((-1.0, 1.0), (-1.0, 1.0), 0.0, 0.1, 0.0, 0); r.below(5)];
            let mut bytes = s.bytes();
            bytes.resize(HEAD + len, 0);
            out.push(Case::of("sheet length", bytes, 64 * CONTACT, 640 * POINT));
        }
    }
    for len in [0, 1, 239, 240, 241, 255, 256, MOST - 1, MOST, MOST + 1, 40_000] {
        let mut bytes = bench().bytes();
        bytes.resize(len, 0);
        out.push(Case::of("input length", bytes, 64 * CONTACT, 640 * POINT));
    }
    let mut s = bench().with(VEL + 1, -1.0).with_word(STEP_LIMIT, 20);
    s.surfaces = vec![green(); 16];
    s.areas = vec![area((-1.0, 1.0), (-1.0, 1.0), 0.0, 0.1, 0.0, 15); 512];
    out.push(Case::new("largest", &s, PROGRAM));
    s.areas.push(s.areas[0]);
    out.push(Case::new("513 patches", &s, PROGRAM));
    s.areas.truncate(3);
    s.surfaces.push(green());
    out.push(Case::new("17 surfaces", &s, PROGRAM));
    out
}

/// Every field at, just inside and just outside each end of its range, and special; numbers 1 to 8 one by one.
pub fn number_cases() -> Vec<Case> {
    let mut base = bench().with(VEL + 1, -2.0).with_word(STEP_LIMIT, 30);
    base.surfaces.push(surface(0, 0.5, 0.4, 0.1, 2, 2.0, 1.0, 0.001));
    base.areas.push(area((-5.0, 5.0), (-5.0, 5.0), 0.0, 0.05, -0.05, 1));
    let mut out = Vec::new();
    let special =
        |lo: f64, hi: f64| [lo, hi, up(lo), down(hi), down(lo), up(hi), f64::NAN, f64::INFINITY, f64::NEG_INFINITY, 0.0, -0.0];
    for f in (0..30).filter(|f| *f != MAX_IMPACTS && *f != STEP_LIMIT) {
        let (lo, hi) = head_range(f);
        for x in special(lo, hi) {
            out.push(Case::new("field", &base.clone().with(f, x), PROGRAM));
        }
    }
    for n in [0, 1, 63, 64, 65, 200, 1000, u64::MAX] {
        out.push(Case::new("max_impacts", &base.clone().with_word(MAX_IMPACTS, n), PROGRAM));
    }
    // more rebounds than max_impacts allows, on contact lists about as long as that
    for n in [62, 63, 64, 65] {
        for contacts in [62, 63, 64] {
            out.push(Case::new("many impacts", &bouncing().with_word(MAX_IMPACTS, n), (contacts, PROGRAM.1)));
        }
    }
    for n in [0, 1, 2_000_000, 2_000_001, u64::MAX] {
        out.push(Case::new("step_limit", &base.clone().with_word(STEP_LIMIT, n), PROGRAM));
    }
    for i in 0..2 {
        for f in [1, 2, 3, 5, 6, 7] {
            let (lo, hi) = surface_range(f);
            for x in special(lo, hi) {
                let mut s = base.clone();
                s.surfaces[i][f] = x.to_bits();
                out.push(Case::new("surface field", &s, PROGRAM));
            }
        }
        for n in [0, 1, 2, 3, u64::MAX] {
            for f in [0, 4] {
                let mut s = base.clone();
                s.surfaces[i][f] = n;
                out.push(Case::new("surface kind", &s, PROGRAM));
            }
        }
    }
    for f in 0..7 {
        let (lo, hi) = area_range(f);
        for x in special(lo, hi) {
            let mut s = base.clone();
            s.areas[0][f] = x.to_bits();
            out.push(Case::new("patch field", &s, PROGRAM));
        }
    }
    for n in [0, 1, 2, u64::MAX] {
        let mut s = base.clone();
        s.areas[0][7] = n;
        out.push(Case::new("patch surface", &s, PROGRAM));
    }
    for f in [0, 2] {
        // lo == hi, and lo just above hi
        for x in [5.0, up(5.0)] {
            let mut s = base.clone();
            s.areas[0][f] = x.to_bits();
            out.push(Case::new("patch edges", &s, PROGRAM));
        }
    }
    for (contacts, points) in [(1, 0), (19, 12), (20, 11), (21, 12), (20, 13), (0, 0), (0, 12), (20, 0), (20, 12), (19, 11), (20, 22), (0, 1)] {
        out.push(Case::of("list length", base.bytes(), contacts, points));
    }
    // two or three numbers at once, pair by pair
    let breaks: [fn(&mut Shot); 6] = [
        |s| s.surfaces[1][2] = (-1.0f64).to_bits(),
        |s| s.areas[0][4] = f64::NAN.to_bits(),
        |s| s.set(DT, 1.0),
        |s| s.set(BALL, 0.0),
        |s| s.set(DENSITY, 11.0),
        |s| s.set(VEL, 201.0),
    ];
    for a in 0..6 {
        for b in a..6 {
            for c in [b, 5] {
                let mut s = base.clone();
                breaks[a](&mut s);
                breaks[b](&mut s);
                breaks[c](&mut s);
                out.push(Case::new("together", &s, PROGRAM));
                let mut cut = s.bytes();
                cut.pop();
                out.push(Case::of("together, length", cut.clone(), 64 * CONTACT, 640 * POINT));
                out.push(Case::of("together, lists", cut, 64 * CONTACT, 640 * POINT + 1));
            }
        }
    }
    for at in [HEAD, HEAD + 1, HEAD + 4, HEAD + 5, HEAD + 8, HEAD + 9, HEAD + 12, HEAD + 13] {
        for x in [0, 1, 3, 17, 255] {
            let mut bytes = base.bytes();
            bytes[at] = x;
            out.push(Case::of("header", bytes, 64 * CONTACT, 640 * POINT));
        }
    }
    out
}

/// Every list length from 0 to past what the run needs, of one random shot.
pub fn list_cases(r: &mut Rng) -> Vec<Case> {
    let (s, ran) = loop {
        let mut s = random_shot(r);
        s.set(MAX_TIME, s.get(MAX_TIME).min(1.5));
        let ran = ample_run(&s, false);
        if ran.accepted() && ran.points.len() <= 120 {
            break (s, ran);
        }
    };
    let mut out = Vec::new();
    for points in 0..=ran.points.len() + 2 {
        out.push(Case::new("points", &s, (ran.contacts.len(), points)));
    }
    for contacts in 0..=ran.contacts.len() + 1 {
        out.push(Case::new("contacts", &s, (contacts, ran.points.len())));
    }
    for odd in 1..20 {
        out.push(Case::of("list length", s.bytes(), odd, 0));
        out.push(Case::of("list length", s.bytes(), 0, odd));
    }
    out
}

/// A fall of 500 km without air onto the steepest slope, with a small ball: great speed at the impact.
pub fn falling(mu_slide: f64, diameter: f64) -> Shot {
    let mut s = bench();
    s.set(DT, 0.01);
    s.set(MAX_TIME, 600.0);
    s.set(ROLL_THRESHOLD, 1.0);
    s.head[STEP_LIMIT] = 60_000;
    s.set(BALL + 1, diameter);
    s.set(BALL + 2, 0.1);
    s.set(DENSITY, 0.0);
    s.surfaces = vec![surface(0, 0.0, mu_slide, 0.05, 0, 1.0, 0.0, 0.0)];
    s.areas = vec![area((-100_000.0, -99_000.0), (-10.0, 10.0), -1000.0, 4.0, 0.0, 0)];
    s.with3(POS, [-98_990.0, 100_000.0, 0.0]).with3(VEL, [-1.0, 10.0, 0.0])
}

/// 22 at an impact, and at a drop to the ground: a spin just under the bound that locking takes past it.
pub fn falling_cases() -> Vec<Case> {
    let s = falling(10.0, 0.005);
    let ran = oracle::settle(&s.bytes(), 64 * CONTACT, 40_000 * POINT, false);
    take_hits();
    let mut out = vec![Case::new("22 at an impact", &s, (64, 40_000)), Case::new("fall, points full", &s, PROGRAM)];
    if ran.answer == 22 {
        let v = [ran.rest[4], ran.rest[5], ran.rest[6]];
        let l = 17.0f64.sqrt();
        let n = [-4.0 / l, 1.0 / l, 0.0];
        let vn = v[0] * n[0] + v[1] * n[1];
        let slip = ((v[0] - vn * n[0]).powi(2) + (v[1] - vn * n[1]).powi(2)).sqrt();
        let k = 0.1;
        let radius = slip / ((1.0 + k) * 1e6 * 1.000_1);
        let mu = k / (1.0 + k) * (slip - 0.9) / -vn;
        out.push(Case::new("22 at a drop", &falling(mu, 2.0 * radius), (64, 40_000)));
    }
    out
}

/// Stops that take very long: their time or their spot passes 1,000,000.
pub fn long_stop_cases() -> Vec<Case> {
    let mut out = Vec::new();
    for v in [1e-8, 1e-7, 0.005] {
        for mu_roll in [0.0, 1e-16, 1e-12, 1e-300] {
            for edge in [false, true] {
                let mut s = bench().with3(VEL, [v, 0.0, 0.0]).with3(SPIN, [0.0, 0.0, -v / (0.04267 / 2.0)]);
                s.surfaces = vec![surface(0, 0.0, 0.4, mu_roll, 0, 1.0, 0.0, 0.0)];
                if edge {
                    s.areas.push(area((-1.0, 0.01), (-1.0, 1.0), 0.0, 0.0, 0.0, 0));
                    s.areas.push(area((0.01, 50_000.0), (-1.0, 1.0), 0.1, 0.0, 0.0, 0));
                }
                out.push(Case::new("long stop", &s, PROGRAM));
            }
        }
    }
    out
}

/// Three spirals, found by search, whose arrival alone passes 1,000,000: both ends of its step do not.
const ARRIVAL_22: [[u64; 40]; 3] = [
    [
        4576918229304087675,
        4576918229304087675,
        4576918229304087675,
        4572414629676717179,
        4638144666238189568,
        64,
        3000,
        4582812511525602827,
        4596906179737166431,
        4604222349211298193,
        0,
        0,
        0,
        4607182418800017408,
        4621819117588971520,
        4621819117588971520,
        4621819117588971520,
        4679519288791400448,
        4637159503819702272,
        4608195728716175770,
        0,
        4681539641407438848,
        4653846365675939335,
        0,
        4639626458584657316,
        4639645782989007197,
        0,
        13871852189115667433,
        0,
        4658944300094192087,
        68719476737,
        343597383680,
        1,
        4602176865161923197,
        4600877379321698714,
        0,
        0,
        4582303509514673648,
        4607182418800017408,
        4562254508917369340,
    ],
    [
        4576918229304087675,
        4576918229304087675,
        4576918229304087675,
        4572414629676717179,
        4638144666238189568,
        64,
        3000,
        4588835593555348869,
        4598429067007015174,
        4602121946401374766,
        0,
        0,
        0,
        4607182418800017408,
        4621819117588971520,
        4621819117588971520,
        4621819117588971520,
        4679519288791400448,
        4637159503819702272,
        4613937818241073152,
        0,
        0,
        4652650967088512678,
        0,
        13861299592255291912,
        4636372111177852605,
        0,
        13843166318829699533,
        0,
        13878402243617811057,
        68719476737,
        343597383680,
        0,
        4595972216485749246,
        4596373779694328218,
        4602678819172646912,
        2,
        4607258460026737888,
        0,
        4562254508917369340,
    ],
    [
        4576918229304087675,
        4576918229304087675,
        4576918229304087675,
        4572414629676717179,
        4638144666238189568,
        64,
        3000,
        4584798473385931300,
        4599629345732563572,
        4599974362508394538,
        0,
        0,
        0,
        4607182418800017408,
        4621819117588971520,
        4621819117588971520,
        4621819117588971520,
        4679519288791400448,
        4637159503819702272,
        4608195728716175770,
        0,
        0,
        4654086133752913059,
        0,
        4633966709160451216,
        4638829334862448661,
        0,
        13857920811200938232,
        0,
        13875868700600648625,
        68719476737,
        343597383680,
        1,
        0,
        4600877379321698714,
        4588087156379966505,
        1,
        4612811918334230528,
        4607182418800017408,
        4562254508917369340,
    ],
];

pub fn arrival_cases() -> Vec<Case> {
    let bytes = |words: &[u64; 40]| words.iter().flat_map(|w| w.to_le_bytes()).collect();
    ARRIVAL_22.iter().map(|w| Case::of("22 at an arrival", bytes(w), 64 * CONTACT, 640 * POINT)).collect()
}

/// Shots that leave the bounds, and the same moved so that the failing place is near ±1,000,000.
pub fn beyond_cases(r: &mut Rng, slow: bool) -> Vec<Case> {
    let mut out = Vec::new();
    if slow {
        out.push(Case::new("long slope", &long_slope(r), AMPLE));
        out.extend(falling_cases());
        out.extend(long_stop_cases());
        out.extend(arrival_cases());
    }
    let s = spiral(r);
    out.push(Case::new("spiral", &s, AMPLE));
    // the same from such a height that it meets the ground in the last step that passed
    let mut high = s.clone().with(POS + 1, 90_000.0);
    high.areas.clear();
    let ran = ample_run(&high, false);
    let fell = 90_000.0 - ran.rest[2];
    if ran.answer == 22 && fell > 100.0 && fell < 90_000.0 {
        for _ in 0..4 {
            out.push(Case::new("spiral, lowered", &high.clone().with(POS + 1, fell * r.range(0.05, 1.0)), AMPLE));
        }
    }
    let s = wild_shot(r);
    out.push(Case::new("wild", &s, AMPLE));
    let ran = ample_run(&s, false);
    if ran.answer != 22 || ran.steps < 2 {
        return out;
    }
    for axis in [0, 2] {
        let last = ran.rest[1 + axis];
        let v = ran.rest[4 + axis].abs().max(1.0);
        for _ in 0..6 {
            let want = last.signum() * (1e6 - r.range(-0.1, 1.0) * v * s.get(DT));
            let moved = s.get(POS + axis) + (want - last);
            if moved.abs() <= 100_000.0 {
                out.push(Case::new("wild, moved", &s.clone().with(POS + axis, moved), AMPLE));
            }
        }
    }
    out
}

/// The random cases of one turn `i`.
pub fn random_cases(r: &mut Rng, i: u64) -> Vec<Case> {
    let mut s = random_shot(r);
    let mut out = Vec::new();
    match i % 8 {
        0 | 1 => {
            let lend = if r.chance(2) { AMPLE } else { (r.below(12), r.below(200)) };
            out.push(Case::new("random", &s, lend));
        }
        2..=4 => {
            let ran = ample_run(&s, true);
            for _ in 0..4 {
                let mut t = s.clone();
                let lend = snap(r, &mut t, &ran, AMPLE);
                out.push(Case::new("snapped", &t, lend));
            }
        }
        5 => {
            s.set(MAX_TIME, 0.1);
            for _ in 0..4 {
                let mut t = s.clone();
                for _ in 0..r.pick(&[1, 1, 1, 2, 3]) {
                    change_field(r, &mut t);
                }
                let (mut a, mut b) = (64 * CONTACT, 64 * POINT);
                if r.chance(8) {
                    a = r.below(100);
                }
                if r.chance(8) {
                    b = r.below(100);
                }
                out.push(Case::of("fields", t.bytes(), a, b));
            }
        }
        6 => {
            s.set(MAX_TIME, 0.1);
            if s.areas.len() > 30 {
                s.areas.truncate(3);
            }
            for _ in 0..6 {
                let mut bytes = s.bytes();
                damage(r, &mut bytes);
                out.push(Case::of("damaged", bytes, 64 * CONTACT, 64 * POINT));
            }
        }
        _ => out = rare_cases(r, &mut s),
    }
    out
}

/// Towards rare branches.
pub fn rare_cases(r: &mut Rng, s: &mut Shot) -> Vec<Case> {
    let mut out = Vec::new();
    match r.below(9) {
        0 => {
            // a steep down-slope: hops that do not die out, discarded
            let a = r.range(0.05, 1.5);
            s.areas = vec![area((-500.0, 500.0), (-500.0, 500.0), 0.0, -a, r.pick(&[0.0, a, 0.1]), 0)];
            s.surfaces[0] = surface(0, r.range(0.3, 1.0), r.pick(&[0.0, 0.4]), 0.05, 0, 1.0, 0.0, 0.0);
            *s = s.clone().with3(POS, [0.0, 0.0, 0.0]).with3(VEL, [r.range(0.0, 20.0), -r.range(0.2, 8.0), 0.0]);
            s.head[MAX_IMPACTS] = MOST_IMPACTS;
            s.head[STEP_LIMIT] = 3000;
            s.set(MAX_TIME, 3.0);
            take_hits();
            let ran = oracle::settle(&s.bytes(), AMPLE.0 * CONTACT, AMPLE.1 * POINT, false);
            let discarded = take_hits() >> (Hit::hop_discarded as u8) & 1 == 1;
            out.push(Case::new("discard", s, AMPLE));
            if discarded {
                // the last list length before 21 comes from the discarded hop itself
                let most = AMPLE.1.min(ran.points.len() + 300);
                let mut low = 0;
                let mut high = most;
                while low + 1 < high {
                    let mid = (low + high) / 2;
                    let out = oracle::settle(&s.bytes(), AMPLE.0 * CONTACT, mid * POINT, false);
                    take_hits();
                    if out.answer == 21 && out.points.len() == mid && out.contacts.len() < ran.contacts.len() {
                        low = mid;
                    } else {
                        high = mid;
                    }
                }
                for n in [low, high, high + 1] {
                    out.push(Case::new("discard, points full", s, (AMPLE.0, n)));
                }
            }
        }
        1 => {
            // a long stop: the time of a stop passes t_end
            s.set(STOP_SPEED, 1.0);
            let v = r.range(0.1, 1.0);
            let radius = s.get(BALL + 1) / 2.0;
            *s = s.clone().with3(VEL, [v, 0.0, 0.0]).with3(SPIN, [0.0, r.range(-9.0, 9.0), (-v / radius).max(-5000.0)]);
            s.areas.clear();
            s.surfaces[0] =
                surface(1, 0.0, 0.4, r.pick(&[0.001, 0.01, 0.05]), r.below(3) as u64, 2.5, 1.0, r.pick(&[0.0, 0.001]));
            s.set(MAX_TIME, r.range(0.0, 1.0));
            s.head[STEP_LIMIT] = r.pick(&[1, 2, 5000]);
            out.push(Case::new("long stop", s, AMPLE));
        }
        2 => {
            // slide on a slope with its root search
            let a = r.range(0.0, 0.3) * r.sign();
            s.areas = vec![area((-500.0, 500.0), (-500.0, 500.0), 0.0, a, r.range(-0.2, 0.2), 0)];
            let s0 = s.surfaces[0];
            s.surfaces = vec![surface(0, 0.0, r.pick(&[0.05, 0.4, 1.0]), 0.05, 0, 1.0, 0.0, f64::from_bits(s0[7]))];
            s.set(ROLL_THRESHOLD, r.pick(&[0.0, 0.0, 1e-7, 1e-6, 0.01, 0.3]));
            *s = s.clone().with3(POS, [0.0, 0.0, 0.0]).with3(VEL, [r.range(-3.0, 3.0), 0.0, r.range(-3.0, 3.0)]);
            s.set(MAX_TIME, 2.0);
            s.head[STEP_LIMIT] = 2000;
            out.push(Case::new("slope slide", s, AMPLE));
        }
        3 => {
            // the exponential law past 700
            let v = r.range(5.0, 30.0);
            let radius = s.get(BALL + 1) / 2.0;
            s.surfaces[0] = surface(0, 0.0, 10.0, r.pick(&[0.0, 0.01, 10.0]), 2, r.scale(0.01, 0.04), 0.0, 0.0);
            *s = s.clone().with3(VEL, [v, 0.0, 0.0]).with3(SPIN, [0.0, 0.0, (-v / radius).max(-5000.0)]);
            if r.chance(2) {
                s.areas.clear();
            }
            s.set(MAX_TIME, 1.0);
            out.push(Case::new("exponential", s, AMPLE));
        }
        4 => {
            // a wall: a jump in height across the flight, its edge where the ball passes
            let mut t = s.clone();
            t.areas.clear();
            t.surfaces.truncate(1);
            t.head[STEP_LIMIT] = 1500;
            t.head[MAX_IMPACTS] = 50;
            t.set(MAX_TIME, 2.0);
            let ran = ample_run(&t, true);
            if ran.accepted() && ran.looks.len() > 20 {
                for _ in 0..3 {
                    let (x, z) = ran.looks[r.below(ran.looks.len())];
                    let mut u = t.clone();
                    let h = r.pick(&[0.001, 0.01, 0.1, 1.0, -0.1, 1000.0]);
                    let near = x + 0.01 * r.unit();
                    let x = r.pick(&[x, up(x), down(x), near]).clamp(-100_000.0, 100_000.0);
                    let z = z.clamp(-99_990.0, 99_990.0);
                    let ends = if r.chance(2) { (x, 100_000.0) } else { (-100_000.0, x) };
                    u.areas.push(area(ends, (z - 5.0, z + 5.0), h, r.pick(&[0.0, 0.0, 0.01]), 0.0, 0));
                    out.push(Case::new("wall", &u, AMPLE));
                }
            }
        }
        6 => {
            // slips and speeds near 1e-9 and 1e-6, on level ground and on slopes
            let near = r.pick(&[1e-9, 1e-9, 1e-6]) * r.pick(&[1.0, 1.0, 0.5, 2.0]) * r.range(0.9, 1.2);
            let radius = s.get(BALL + 1) / 2.0;
            let v = r.pick(&[0.0, 0.0, near, 1.0]);
            *s = s.clone().with3(VEL, [v, 0.0, 0.0]).with3(SPIN, [0.0, 0.0, (-(v + near * r.sign()) / radius).max(-5000.0)]);
            if r.chance(3) {
                *s = s.clone().with3(VEL, [near, 0.0, 0.0]).with3(SPIN, [0.0, 0.0, -near / radius]);
            }
            s.set(ROLL_THRESHOLD, r.pick(&[0.0, 0.0, 1e-9, 1e-6]));
            s.set(STOP_SPEED, r.pick(&[0.0, 0.01]));
            if r.chance(2) {
                s.areas.clear();
            }
            s.set(MAX_TIME, r.pick(&[0.0, 0.5]));
            out.push(Case::new("tiny slip", s, AMPLE));
        }
        7 => {
            // straight up or down with the spin along the way, or hardly any spin: no lift, no speed
            let w = r.pick(&[0.0, 1e-11, 1e-10, 1e-3, 0.02, 100.0]);
            *s = s.clone().with3(VEL, [0.0, -r.range(1.0, 20.0), 0.0]).with3(SPIN, [0.0, w, r.pick(&[0.0, 0.0, 1e-12, 0.01])]);
            s.areas.clear();
            s.set(DENSITY, r.pick(&[1.225, 10.0]));
            s.set(MIN_HOP, 0.0);
            if r.chance(2) {
                s.surfaces[0] = surface(0, r.range(0.5, 1.0), 0.4, 0.05, 0, 1.0, 0.0, 0.0);
            }
            out.push(Case::new("no lift", s, AMPLE));
        }
        5 => {
            // landing under the ground, hops that start below it, a grazing start
            s.set(POS + 1, r.range(-5.0, 5.0));
            s.set(VEL + 1, r.pick(&[-1e-13, -1e-12, -1e-9, 1e-9, -3.0, 4.0]));
            out.push(Case::new("below", s, AMPLE));
        }
        _ => {
            let mut t = wild_shot(r);
            t.set(MAX_TIME, 2.0);
            out.push(Case::new("wild", &t, AMPLE));
        }
    }
    out
}
