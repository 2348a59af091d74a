//! Functions of numbers and of structs on their own, against libprobe. A NaN equals a NaN here.

use crate::shots::{Rng, TOUR};
use crate::{different, threads};
use dimple_ref::added::{HIT_NAMES, take_hits};
use dimple_ref::ground::leaf::LEAVES;
use dimple_ref::stand::Stand;
use std::f64::consts::{LN_2, LOG2_E};
use std::sync::atomic::{AtomicBool, Ordering};
use std::time::Instant;

/// Branches that some leaf reached in the reference.
static REACHED: [AtomicBool; 128] = [const { AtomicBool::new(false) }; 128];

#[allow(dead_code)]
unsafe extern "C" {
    safe fn probe_root(x: f64) -> f64;
    safe fn probe_hypot(a: f64, b: f64) -> f64;
    safe fn probe_cosine(x: f64) -> f64;
    safe fn probe_sine(x: f64) -> f64;
    safe fn probe_arctangent(y: f64, x: f64) -> f64;
    safe fn probe_exponential(x: f64) -> f64;
    safe fn probe_min(a: f64, b: f64) -> f64;
    safe fn probe_max(a: f64, b: f64) -> f64;
    safe fn probe_clamp(x: f64, lo: f64, hi: f64) -> f64;
    safe fn probe_abs(x: f64) -> f64;
    safe fn probe_signum(x: f64) -> f64;
}

macro_rules! structs {
    ($($name:literal $door:ident $has:ident),* $(,)?) => {
        unsafe extern "C" {
            $(#[cfg($has)] fn $door(i: *const f64, i_len: usize, o: *mut f64, o_len: usize) -> u32;)*
        }
        type Door = unsafe extern "C" fn(*const f64, usize, *mut f64, usize) -> u32;
        const DOORS: &[(&str, Door)] = &[$(#[cfg($has)] ($name, $door)),*];
    };
}
structs! {
    "impact" probe_impact has_probe_impact,
    "contact_step" probe_contact_step has_probe_contact_step,
    "flight_step" probe_flight_step has_probe_flight_step,
    "coefficient_at" probe_coefficient_at has_probe_coefficient_at,
    "speed_factor" probe_speed_factor has_probe_speed_factor,
    "contact_angle" probe_contact_angle has_probe_contact_angle,
    "cd_cl" probe_cd_cl has_probe_cd_cl,
    "from_spin_vector" probe_from_spin_vector has_probe_from_spin_vector,
    "acceleration" probe_acceleration has_probe_acceleration,
    "slide" probe_slide has_probe_slide,
    "onto_surface" probe_onto_surface has_probe_onto_surface,
    "hermite" probe_hermite has_probe_hermite,
    "parabola" probe_parabola has_probe_parabola,
    "drop_time" probe_drop_time has_probe_drop_time,
    "hops_die_out" probe_hops_die_out has_probe_hops_die_out,
    "slip" probe_slip has_probe_slip,
    "lock_rolling" probe_lock_rolling has_probe_lock_rolling,
    "saturate_pivot" probe_saturate_pivot has_probe_saturate_pivot,
    "tangential_gravity" probe_tangential_gravity has_probe_tangential_gravity,
    "sample_holds" probe_sample_holds has_probe_sample_holds,
}

/// std's `clamp` without its assertion: below lo gives lo, then above hi gives hi.
fn clamp_of(x: f64, lo: f64, hi: f64) -> f64 {
    let x = if x < lo { lo } else { x };
    if x > hi { hi } else { x }
}

/// A function of numbers: name, millions of inputs at share 100, inputs, the library's, the reference's.
struct Number {
    name: &'static str,
    millions: u64,
    inputs: fn(&mut Rng) -> [f64; 3],
    library: fn([f64; 3]) -> f64,
    reference: fn([f64; 3]) -> f64,
}

fn bits(r: &mut Rng) -> f64 {
    f64::from_bits(r.next())
}

/// Any double: random bits, near-thresholds, small integers, zeros, infinities.
fn any(r: &mut Rng) -> f64 {
    match r.below(8) {
        0 => {
            let t = r.pick(&[0.0, 0.01, 1.0, 2.0, 20.0, 700.0, 0.5, 1e-300, 1e300, f64::MIN_POSITIVE, f64::INFINITY]) * r.sign();
            f64::from_bits(t.to_bits().wrapping_add(r.next() % 9).wrapping_sub(4))
        }
        1 => r.range(-4.0, 4.0),
        2 => r.range(-800.0, 800.0),
        3 => (r.below(2_000_000) as f64 - 1e6) * r.pick(&[1.0, 0.5, 1e-3]),
        _ => bits(r),
    }
}

/// Every exponent, subnormals, squares and their neighbours, midpoints between roots.
fn for_root(r: &mut Rng) -> f64 {
    match r.below(5) {
        0 => f64::from_bits(r.next() >> 1 & !(2047 << 52) | (r.below(2047) as u64) << 52),
        1 => f64::from_bits(r.next() >> (12 + r.below(52))),
        2 => {
            let q = (r.next() >> (11 + r.below(53))) as f64;
            let sq = q * q * r.pick(&[1.0, 4.0, 0.25, 1e-200, 2.0f64.powi(-1060), 2.0f64.powi(600)]);
            f64::from_bits(sq.to_bits().wrapping_add(r.next() % 5).wrapping_sub(2))
        }
        3 => {
            // near the square of a midpoint of two doubles
            let q = (1u64 << 52 | r.next() >> 12) as u128;
            let sq = (2 * q + 1) * (2 * q + 1);
            let x = sq as f64 * r.pick(&[1.0, 2.0, 2.0f64.powi(-1000), 2.0f64.powi(800)]);
            f64::from_bits(x.to_bits().wrapping_add(r.next() % 3).wrapping_sub(1))
        }
        _ => any(r),
    }
}

/// The whole numbers n of exp, from -1010 to 1010, that were reached.
static EXPONENTS: [AtomicBool; 2021] = [const { AtomicBool::new(false) }; 2021];

/// Any double, and neighbours of the points where n changes and where nothing is left after it.
fn for_exp(r: &mut Rng) -> f64 {
    let x = match r.below(4) {
        0 => any(r),
        1 => r.range(-701.0, 701.0),
        k => {
            let n = r.below(2021) as f64 - 1010.0;
            let t = if k == 2 { n + 0.5 } else { n } * LN_2;
            f64::from_bits(t.to_bits().wrapping_add(r.next() % 129).wrapping_sub(64))
        }
    };
    if x.abs() <= 700.0 {
        let n = (x * LOG2_E + 6755399441055744.0) - 6755399441055744.0;
        EXPONENTS[(n + 1010.0) as usize].store(true, Ordering::Relaxed);
    }
    x
}

const NUMBERS: &[Number] = &[
    #[cfg(has_probe_root)]
    Number {
        name: "root",
        millions: 100,
        inputs: |r| [for_root(r), 0.0, 0.0],
        library: |a| probe_root(a[0]),
        reference: |a| a[0].sqrt(),
    },
    #[cfg(has_probe_hypot)]
    Number {
        name: "hypot",
        millions: 10,
        inputs: |r| if r.chance(2) { [any(r), any(r), 0.0] } else { [r.range(0.0, 200.0), r.range(0.0, 200.0), 0.0] },
        library: |a| probe_hypot(a[0], a[1]),
        reference: |a| a[0].hypot_of(a[1]),
    },
    #[cfg(has_probe_cosine)]
    Number {
        name: "cosine",
        millions: 10,
        inputs: |r| [any(r), 0.0, 0.0],
        library: |a| probe_cosine(a[0]),
        reference: |a| a[0].cosine(),
    },
    #[cfg(has_probe_sine)]
    Number {
        name: "sine",
        millions: 10,
        inputs: |r| [any(r), 0.0, 0.0],
        library: |a| probe_sine(a[0]),
        reference: |a| a[0].sine(),
    },
    #[cfg(has_probe_arctangent)]
    Number {
        name: "arctangent",
        millions: 10,
        inputs: |r| {
            let y = if r.chance(2) { any(r) } else { r.scale(1e-6, 300.0) };
            let x = match r.below(4) {
                0 => any(r),
                1 => f64::from_bits(y.to_bits().wrapping_add(r.next() % 5).wrapping_sub(2)),
                _ => r.scale(1e-6, 300.0),
            };
            [y, x, 0.0]
        },
        library: |a| probe_arctangent(a[0], a[1]),
        reference: |a| a[0].arctangent(a[1]),
    },
    #[cfg(has_probe_exponential)]
    Number {
        name: "exponential",
        millions: 100,
        inputs: |r| [for_exp(r), 0.0, 0.0],
        library: |a| probe_exponential(a[0]),
        reference: |a| a[0].exponential(),
    },
    #[cfg(has_probe_min)]
    Number { name: "min", millions: 10, inputs: two, library: |a| probe_min(a[0], a[1]), reference: |a| a[0].min_of(a[1]) },
    #[cfg(has_probe_max)]
    Number { name: "max", millions: 10, inputs: two, library: |a| probe_max(a[0], a[1]), reference: |a| a[0].max_of(a[1]) },
    #[cfg(has_probe_clamp)]
    Number {
        name: "clamp",
        millions: 10,
        inputs: |r| {
            let [a, b, _] = two(r);
            [any(r), a, b]
        },
        library: |a| probe_clamp(a[0], a[1], a[2]),
        reference: |a| {
            if a[1] <= a[2] { a[0].clamp(a[1], a[2]) } else { clamp_of(a[0], a[1], a[2]) }
        },
    },
    #[cfg(has_probe_abs)]
    Number { name: "abs", millions: 10, inputs: |r| [any(r), 0.0, 0.0], library: |a| probe_abs(a[0]), reference: |a| a[0].abs() },
    #[cfg(has_probe_signum)]
    Number {
        name: "signum",
        millions: 10,
        inputs: |r| [any(r), 0.0, 0.0],
        library: |a| probe_signum(a[0]),
        reference: |a| a[0].signum(),
    },
];

/// Two doubles, often equal or neighbours or zeros of either sign.
fn two(r: &mut Rng) -> [f64; 3] {
    let a = any(r);
    let b = match r.below(5) {
        0 => a,
        1 => -a,
        2 => f64::from_bits(a.to_bits().wrapping_add(r.next() % 3).wrapping_sub(1)),
        _ => any(r),
    };
    [a, b, 0.0]
}

pub fn same(a: f64, b: f64) -> bool {
    a.to_bits() == b.to_bits() || (a.is_nan() && b.is_nan())
}

// fields in the working range

fn vec_into(r: &mut Rng, o: &mut [f64], size: f64) {
    for x in &mut o[..3] {
        *x = r.range(-size, size);
    }
    if r.chance(6) {
        o[r.below(3)] = r.pick(&[0.0, -0.0]);
    }
    if r.chance(30) {
        o[..3].fill(0.0);
    }
}

fn normal_into(r: &mut Rng, o: &mut [f64]) {
    match r.below(4) {
        0 => o[..3].copy_from_slice(&[0.0, 1.0, 0.0]),
        1 => o[..3].copy_from_slice(&[-0.0, 1.0, -0.0]),
        2 => o[..3].copy_from_slice(&[r.range(-0.2, 0.2), 1.0, r.range(-0.2, 0.2)]),
        _ => o[..3].copy_from_slice(&[r.range(-4.0, 4.0), 1.0, r.range(-4.0, 4.0)]),
    }
}

fn unit_into(r: &mut Rng, o: &mut [f64]) {
    normal_into(r, o);
    let l = 1.0 / ((o[0] * o[0] + o[1] * o[1]) + o[2] * o[2]).sqrt();
    o[..3].iter_mut().for_each(|x| *x *= l);
}

fn state_into(r: &mut Rng, o: &mut [f64]) {
    o[0] = r.range(0.0, 50.0);
    vec_into(r, &mut o[1..], 100.0);
    let v = r.pick(&[1e-9, 0.01, 1.0, 10.0, 50.0]);
    vec_into(r, &mut o[4..], v);
    let w = r.pick(&[1e-6, 1.0, 100.0, 1000.0]);
    vec_into(r, &mut o[7..], w);
}

fn sample_into(r: &mut Rng, o: &mut [f64]) {
    o[0] = r.range(-2.0, 2.0);
    normal_into(r, &mut o[1..]);
    o[4] = r.below(2) as f64;
    o[5] = r.unit();
    o[6] = r.pick(&[0.0, 0.1, 0.4, 1.0]);
    o[7] = r.pick(&[0.0, 0.055, 0.12, 1.0]);
    o[8] = r.below(3) as f64;
    o[9] = r.scale(0.01, 100.0);
    o[10] = r.pick(&[0.0, 0.5, 1.0, 10.0]);
    o[11] = r.pick(&[0.0, 0.001, 0.1]);
}

fn ball_into(r: &mut Rng, o: &mut [f64]) {
    o[..12].copy_from_slice(&TOUR);
    if r.chance(2) {
        o[0] = r.scale(0.001, 1.0);
        o[1] = r.scale(0.005, 0.5);
        o[2] = r.range(0.1, 1.0);
        for i in [3, 4, 5, 7, 8] {
            o[i] = r.range(0.0, 1.0);
        }
        o[6] = r.scale(0.001, 10.0);
        o[9] = r.scale(0.001, 10.0);
        o[10] = r.range(0.0, 2e5);
        o[11] = r.scale(1.0, 1e5);
    }
}

/// Puts the spin near rolling without slip, so that small slips and rolls come up.
fn near_rolling(r: &mut Rng, vel: [f64; 3], n: [f64; 3], radius: f64, spin: &mut [f64]) {
    let off = r.pick(&[0.0, 1e-12, 1e-9, 1e-6, 1e-3, 0.1]);
    let w = r.pick(&[0.0, -0.0, 1.0, -30.0]);
    for i in 0..3 {
        let (j, k) = ((i + 1) % 3, (i + 2) % 3);
        spin[i] = (n[j] * vel[k] - n[k] * vel[j]) / radius * (1.0 + off * r.range(-1.0, 1.0)) + w * n[i];
    }
}

/// Fills a leaf's input in its working range.
fn fill(name: &str, r: &mut Rng, i: &mut [f64]) {
    let dt = r.pick(&[0.001, 0.01, 0.0001]) * r.range(0.1, 1.0);
    match name {
        "impact" | "contact_step" => {
            state_into(r, i);
            sample_into(r, &mut i[10..]);
            ball_into(r, &mut i[22..]);
            if name == "contact_step" {
                i[34] = dt;
                i[35] = r.pick(&[0.0, 0.01, 1.0]);
                i[36] = r.pick(&[0.0, 0.01, 1.0]);
                if r.chance(2) {
                    let l = 1.0 / ((i[11] * i[11] + i[12] * i[12]) + i[13] * i[13]).sqrt();
                    let n = [i[11] * l, i[12] * l, i[13] * l];
                    let radius = i[23] / 2.0;
                    let dot = i[4] * n[0] + i[5] * n[1] + i[6] * n[2];
                    let v = [i[4] - dot * n[0], i[5] - dot * n[1], i[6] - dot * n[2]];
                    near_rolling(r, v, n, radius, &mut i[7..10]);
                }
            }
        }
        "flight_step" => {
            ball_into(r, i);
            vec_into(r, &mut i[12..], 500.0);
            i[15] = r.pick(&[0.0, -0.0, 1.225, 10.0]);
            vec_into(r, &mut i[16..], 100.0);
            vec_into(r, &mut i[19..], 60.0);
            i[22] = r.range(0.0, 50.0);
            i[23] = dt;
        }
        "coefficient_at" => {
            i[0] = r.below(2) as f64;
            i[1] = r.unit();
            i[2] = r.range(-40.0, 40.0);
            if r.chance(10) {
                let t: f64 = 20.0 * r.sign();
                i[2] = f64::from_bits(t.to_bits().wrapping_add(r.next() % 5).wrapping_sub(2));
            }
        }
        "speed_factor" => {
            i[0] = r.below(3) as f64;
            i[1] = r.scale(0.01, 1000.0);
            i[2] = r.scale(1e-9, 200.0);
        }
        "contact_angle" => {
            i[0] = r.pick(&[0.0, 0.5, 1.0, 10.0]);
            i[1] = r.scale(0.001, 200.0);
            i[2] = r.scale(1e-9, 200.0);
        }
        "cd_cl" => {
            ball_into(r, i);
            i[12] = r.range(0.0, 2000.0);
            i[13] = r.scale(1e-11, 100.0);
            i[14] = r.pick(&[0.5, 1.225, 10.0]);
        }
        "from_spin_vector" => {
            let w = r.pick(&[1e-11, 1e-9, 1.0, 1000.0]);
            vec_into(r, i, w);
        }
        "acceleration" => {
            ball_into(r, i);
            let v = r.pick(&[1e-11, 1.0, 60.0]);
            vec_into(r, &mut i[12..], v);
            unit_into(r, &mut i[15..]);
            i[18] = r.pick(&[0.0, 1e-11, 1.0, 1.0]) * r.range(0.0, 1000.0);
            i[19] = r.pick(&[0.5, 1.225, 10.0]);
        }
        "slide" => {
            unit_into(r, i);
            let n = [i[0], i[1], i[2]];
            // tangential gravity of that normal
            let g = -9.80665 * n[1];
            for k in 0..3 {
                i[3 + k] = if k == 1 { -9.80665 } else { 0.0 } - g * n[k];
            }
            i[6] = r.pick(&[0.0, 0.1, 0.4, 1.0]) * 9.80665 * n[1];
            i[7] = r.scale(0.0025, 0.25);
            i[8] = r.range(0.1, 1.0);
            let p = r.pick(&[0.0, 10.0, -50.0]);
            for k in 0..3 {
                i[9 + k] = p * n[k];
            }
            vec_into(r, &mut i[12..], 10.0);
            let v = r.pick(&[0.01, 0.1, 1.0, 10.0, 10_000.0]);
            vec_into(r, &mut i[15..], v);
            vec_into(r, &mut i[18..], 100.0);
            i[21] = r.range(0.0, 10.0);
            i[22] = dt;
            i[23] = r.pick(&[0.0, 1e-6, 0.01, 0.3]);
            if r.chance(2) {
                let v = [i[15], i[16], i[17]];
                let radius = i[7];
                near_rolling(r, v, n, radius, &mut i[18..21]);
            }
        }
        "onto_surface" => {
            state_into(r, i);
            sample_into(r, &mut i[10..]);
            normal_into(r, &mut i[22..]);
            if r.chance(3) {
                i.copy_within(11..14, 22);
                i[2] = i[10];
            }
            i[25] = r.below(2) as f64;
            i[26] = r.scale(0.0025, 0.25);
        }
        "hermite" => {
            vec_into(r, i, 100.0);
            vec_into(r, &mut i[3..], 60.0);
            i[12] = dt;
            for k in 0..3 {
                i[6 + k] = i[k] + i[3 + k] * dt;
                i[9 + k] = i[3 + k] + r.range(-0.1, 0.1);
            }
            i[13] = dt * r.pick(&[0.0, 0.125, 0.5, 1.0, 1.0]) * r.pick(&[1.0, r.0 as f64 / u64::MAX as f64]);
        }
        "parabola" => {
            vec_into(r, i, 100.0);
            vec_into(r, &mut i[3..], 60.0);
            i[6] = dt * r.unit();
        }
        "drop_time" => {
            i[0] = r.range(-1.0, 3.0) * r.pick(&[0.0, 1e-9, 1.0]);
            i[1] = r.range(-20.0, 20.0) * r.pick(&[0.0, 1e-9, 1.0, 1.0]);
        }
        "hops_die_out" => {
            for k in 0..3 {
                state_into(r, &mut i[10 * k..]);
            }
            if r.chance(2) {
                i.copy_within(7..10, 17);
                i.copy_within(17..20, 27);
                for k in 0..3 {
                    i[14 + k] = i[4 + k] * r.range(0.5, 1.0);
                    i[24 + k] = i[14 + k] * r.range(0.9, 1.4);
                }
            }
            unit_into(r, &mut i[30..]);
            ball_into(r, &mut i[33..]);
            i[45] = r.pick(&[0.0, 0.005, 0.1, 1.0]);
        }
        "slip" | "lock_rolling" => {
            vec_into(r, i, 30.0);
            vec_into(r, &mut i[3..], 500.0);
            unit_into(r, &mut i[6..]);
            i[9] = r.scale(0.0025, 0.25);
            if name == "lock_rolling" {
                i[10] = r.range(0.1, 1.0);
            }
        }
        "saturate_pivot" => {
            let w = r.pick(&[0.0, 1e-3, 100.0]);
            vec_into(r, i, w);
            vec_into(r, &mut i[3..], 1.0);
            unit_into(r, &mut i[6..]);
            if r.chance(2) {
                i[3] = i[0] * r.range(-0.1, 1.0);
                i[4] = i[1] * r.range(-0.1, 1.0);
                i[5] = i[2] * r.range(-0.1, 1.0);
            }
        }
        "tangential_gravity" => unit_into(r, i),
        "sample_holds" => {
            sample_into(r, i);
            if r.chance(2) {
                // near the angle at which it just holds
                i[1] = i[7] * (1.0 + r.range(-1e-15, 1e-15));
                i[3] = 0.0;
            }
        }
        _ => unreachable!("{name}"),
    }
}

fn as_bytes(x: &[f64]) -> Vec<u8> {
    x.iter().flat_map(|v| v.to_le_bytes()).collect()
}

fn timed(work: impl FnOnce()) -> f64 {
    let t = Instant::now();
    work();
    t.elapsed().as_secs_f64()
}

/// Inputs are made in blocks; both sides are timed on each in turn and the best block is printed.
const BLOCK: usize = 1024;

fn number_mode(f: &Number, seed: u64, count: u64) -> (u64, f64, f64) {
    let mut r = Rng(seed);
    let mut done = 0;
    let (mut lib, mut rust) = (f64::INFINITY, f64::INFINITY);
    let mut a = vec![0.0; BLOCK];
    let mut b = vec![0.0; BLOCK];
    while done < count {
        let inputs: Vec<[f64; 3]> = (0..BLOCK).map(|_| (f.inputs)(&mut r)).collect();
        lib = lib.min(timed(|| a.iter_mut().zip(&inputs).for_each(|(o, i)| *o = (f.library)(*i))));
        rust = rust.min(timed(|| b.iter_mut().zip(&inputs).for_each(|(o, i)| *o = (f.reference)(*i))));
        for k in 0..BLOCK {
            if !same(a[k], b[k]) {
                different(f.name, format!("{:?} gives {:?}, expected {:?}", inputs[k], a[k], b[k]), &as_bytes(&inputs[k]));
            }
        }
        done += BLOCK as u64;
    }
    (done, lib, rust)
}

/// Where a leaf's inputs come from. `NoExp`: the working range without a call of exp.
#[derive(Clone, Copy, PartialEq)]
enum Kind {
    Working,
    NoExp,
    AnyBits,
}

/// The field that decides whether exp is called, and its value without it: the roll law, or the air's density.
fn without_exp(name: &str) -> Option<(usize, f64)> {
    match name {
        "contact_step" => Some((18, 1.0)),
        "flight_step" => Some((15, 0.0)),
        _ => None,
    }
}

fn struct_mode(leaf: usize, seed: u64, count: u64, kind: Kind) -> (u64, f64, f64) {
    take_hits();
    let (name, i_len, o_len, reference) = LEAVES[leaf];
    let door = DOORS.iter().find(|d| d.0 == name).expect("a door").1;
    let mut r = Rng(seed);
    let mut done = 0;
    let (mut lib, mut rust) = (f64::INFINITY, f64::INFINITY);
    let mut inputs = vec![0.0; BLOCK * i_len];
    let mut a = vec![0.0; BLOCK * o_len];
    let mut b = vec![0.0; BLOCK * o_len];
    while done < count {
        for i in inputs.chunks_exact_mut(i_len) {
            if kind == Kind::AnyBits {
                // whole random patterns, or a working input with some fields replaced
                if r.chance(2) {
                    i.iter_mut().for_each(|x| *x = bits(&mut r));
                } else {
                    fill(name, &mut r, i);
                    for _ in 0..1 + r.below(3) {
                        let k = r.below(i_len);
                        i[k] = any(&mut r);
                    }
                }
            } else {
                fill(name, &mut r, i);
                if let (Kind::NoExp, Some((k, value))) = (kind, without_exp(name)) {
                    i[k] = value;
                }
            }
        }
        a.fill(-7.0);
        b.fill(-7.0);
        let mut wrong = 0;
        lib = lib.min(timed(|| {
            for (i, o) in inputs.chunks_exact(i_len).zip(a.chunks_exact_mut(o_len)) {
                wrong |= unsafe { door(i.as_ptr(), i_len, o.as_mut_ptr(), o_len) };
            }
        }));
        rust = rust.min(timed(|| {
            for (i, o) in inputs.chunks_exact(i_len).zip(b.chunks_exact_mut(o_len)) {
                reference(i, o);
            }
        }));
        if wrong != 0 {
            different(name, format!("answers {wrong}"), &[]);
        }
        for k in 0..BLOCK {
            let (i, x, y) = (&inputs[k * i_len..(k + 1) * i_len], &a[k * o_len..(k + 1) * o_len], &b[k * o_len..(k + 1) * o_len]);
            if let Some(at) = (0..o_len).find(|&j| !same(x[j], y[j])) {
                different(name, format!("output {at} is {:?}, expected {:?}, of {i:?}", x[at], y[at]), &as_bytes(i));
            }
        }
        done += BLOCK as u64;
    }
    let hits = take_hits();
    for (i, r) in REACHED.iter().enumerate() {
        r.fetch_or(hits >> i & 1 == 1, Ordering::Relaxed);
    }
    // a wrong length answers 100 and touches nothing
    let mut o = vec![-7.0; o_len + 1];
    let i = vec![0.5; i_len + 1];
    for (il, ol) in [(i_len + 1, o_len), (i_len - 1, o_len), (i_len, o_len + 1), (i_len, o_len - 1)] {
        let answer = unsafe { door(i.as_ptr(), il, o.as_mut_ptr(), ol) };
        if answer != 100 || o.iter().any(|x| *x != -7.0) {
            different(name, format!("lengths {il}, {ol} answer {answer}"), &[]);
        }
    }
    (done, lib, rust)
}

fn report(name: &str, kind: &str, parts: Vec<(u64, f64, f64)>) {
    let n: u64 = parts.iter().map(|p| p.0).sum();
    let best = |f: fn(&(u64, f64, f64)) -> f64| parts.iter().map(f).fold(f64::INFINITY, f64::min);
    let (lib, rust) = (best(|p| p.1), best(|p| p.2));
    let ns = |t: f64| t * 1e9 / BLOCK as f64;
    println!("  {name:20} {kind:8} {n:>11} inputs   library {:8.1} ns   Rust {:8.1} ns", ns(lib), ns(rust));
}

/// `share` is a percentage of the full counts.
pub fn run(seed: u64, share: u64, n: u64, only: &str) {
    println!("leaves: seed {seed}, {share} % of the full counts, {n} threads");
    for f in NUMBERS.iter().filter(|f| only.starts_with("--") || only.is_empty() || only == f.name) {
        let count = f.millions * 10_000 * share / n;
        report(f.name, "all", threads(n, |t| number_mode(f, seed.wrapping_mul(77) + t, count)));
    }
    let exponents = EXPONENTS.iter().filter(|n| n.load(Ordering::Relaxed)).count();
    println!("  exponents n of exp reached: {exponents} of {}", EXPONENTS.len());
    for leaf in 0..LEAVES.len() {
        let name = LEAVES[leaf].0;
        if !DOORS.iter().any(|d| d.0 == name) {
            println!("  {name:20} has no door");
            continue;
        }
        if !(only.starts_with("--") || only.is_empty() || only == name) {
            continue;
        }
        for (text, millions, kind) in [("working", 10, Kind::Working), ("no exp", 1, Kind::NoExp), ("any bits", 1, Kind::AnyBits)]
        {
            if kind != Kind::NoExp || without_exp(name).is_some() {
                let count = millions * 10_000 * share / n;
                report(name, text, threads(n, |t| struct_mode(leaf, seed.wrapping_mul(78) + t, count, kind)));
            }
        }
    }
    let names: Vec<&str> = HIT_NAMES.iter().zip(&REACHED).filter(|(_, r)| r.load(Ordering::Relaxed)).map(|(n, _)| *n).collect();
    println!("branches reached: {}", names.join(" "));
}
