//! The build with std's own functions against the reference: the largest differences of whole shots.

use crate::shots::*;
use dimple_ref::oracle as reference;
use dimple_std::oracle as std_build;

#[derive(Default, Clone)]
struct Largest {
    value: f64,
    shot: u64,
    note: String,
}

impl Largest {
    fn note(&mut self, value: f64, shot: u64, note: impl Fn() -> String) {
        if value > self.value {
            *self = Self { value, shot, note: note() };
        }
    }
}

#[derive(Default, Clone)]
struct Totals {
    shots: u64,
    same: u64,
    answers: u64,
    terminations: u64,
    spot: Largest,
    time: Largest,
    steps: Largest,
    contacts: Largest,
    points: Largest,
    spots_over: [u64; 8],
}

/// Largest differences with ordinary shots: TOUR, GREEN and FAIRWAY, gentle slopes.
fn ordinary_shot(r: &mut Rng) -> Shot {
    let mut s = bench();
    s.head[STEP_LIMIT] = 2_000_000;
    s.set(MAX_TIME, 30.0);
    s.set(DT, 0.005);
    s.surfaces = vec![green(), fairway()];
    s = s.with3(VEL, [r.range(0.0, 40.0), -r.range(0.5, 30.0), r.range(-5.0, 5.0)]);
    s = s.with3(SPIN, [r.range(-50.0, 50.0), r.range(-50.0, 50.0), r.range(-200.0, 900.0)]);
    for _ in 0..r.below(4) {
        let x = r.range(0.0, 60.0);
        let (a, b) = (r.range(-0.05, 0.05), r.range(-0.05, 0.05));
        s.areas.push(area((x, x + r.range(1.0, 30.0)), (-30.0, 30.0), -a * x, a, b, r.below(2) as u64));
    }
    s
}

/// Largest relative differences of the functions alone, in their working range.
fn functions(seed: u64) {
    use dimple_ref::stand::Stand;
    println!("stand-ins against std, 1,000,000 inputs each: largest relative difference");
    let mut r = Rng(seed);
    type Pair = fn(f64, f64) -> (f64, f64);
    let list: [(&str, f64, f64, Pair); 5] = [
        ("hypot", 0.01, 300.0, |a, b| (a.hypot_of(b), a.hypot(b))),
        ("cosine", 1e-6, 1.5707, |a, _| (a.cosine(), a.cos())),
        ("sine", 1e-6, 1.5707, |a, _| (a.sine(), a.sin())),
        ("arctangent", 0.01, 300.0, |a, b| (a.arctangent(b), a.atan2(b))),
        ("exponential", 1e-6, 700.0, |a, b| {
            let x = if b > 1.0 { a } else { -a };
            (x.exponential(), x.exp())
        }),
    ];
    for (name, lo, hi, pair) in list {
        let mut most = (0.0, 0.0, 0.0);
        for _ in 0..1_000_000 {
            let (a, b) = (if r.chance(2) { r.scale(lo, hi) } else { r.range(lo, hi) }, r.scale(lo, hi));
            let (x, y) = pair(a, b);
            let d = ((x - y) / y).abs();
            if d > most.0 {
                most = (d, a, b);
            }
        }
        println!("  {name:12} {:e} at {:?}, {:?}", most.0, most.1, most.2);
    }
}

pub fn run(seed: u64, shots: u64, n: u64) {
    functions(seed);
    for (name, make) in [("ordinary", ordinary_shot as fn(&mut Rng) -> Shot), ("random", random_shot)] {
        println!("unpatched, {name} shots: seed {seed}, {shots} shots");
        let parts = crate::threads(n, |t| {
            let mut w = Totals::default();
            for i in 0..shots / n {
                let number = t * (shots / n) + i;
                let mut r = Rng(seed.wrapping_mul(1_000_000_007) + number);
                let s = make(&mut r);
                let bytes = s.bytes();
                let a = reference::settle(&bytes, 1000 * 20, 20_000 * 12, false);
                let b = std_build::settle(&bytes, 1000 * 20, 20_000 * 12, false);
                w.shots += 1;
                let bits = |x: &[f64]| x.iter().map(|v| v.to_bits()).collect::<Vec<_>>();
                if a.answer != b.answer {
                    w.answers += 1;
                    continue;
                }
                if a.termination != b.termination {
                    w.terminations += 1;
                    continue;
                }
                if bits(&a.rest) == bits(&b.rest) && a.steps == b.steps {
                    w.same += 1;
                }
                let d = |i: usize| a.rest[i] - b.rest[i];
                let spot = (d(1) * d(1) + d(2) * d(2) + d(3) * d(3)).sqrt();
                for (k, limit) in [1e-12, 1e-9, 1e-6, 1e-3, 0.01, 0.1, 1.0, 10.0].iter().enumerate() {
                    w.spots_over[k] += u64::from(spot > *limit);
                }
                let say = || format!("answer {} termination {} steps {} and {}", a.answer, a.termination, a.steps, b.steps);
                w.spot.note(spot, number, say);
                w.time.note(d(0).abs(), number, say);
                w.steps.note(a.steps.abs_diff(b.steps) as f64, number, say);
                w.contacts.note(a.contacts.len().abs_diff(b.contacts.len()) as f64, number, || {
                    format!("{} and {}", a.contacts.len(), b.contacts.len())
                });
                w.points.note(a.points.len().abs_diff(b.points.len()) as f64, number, || {
                    format!("{} and {}", a.points.len(), b.points.len())
                });
            }
            w
        });
        let mut w = Totals::default();
        for p in parts {
            w.shots += p.shots;
            w.same += p.same;
            w.answers += p.answers;
            w.terminations += p.terminations;
            for k in 0..8 {
                w.spots_over[k] += p.spots_over[k];
            }
            for (to, from) in [
                (&mut w.spot, p.spot),
                (&mut w.time, p.time),
                (&mut w.steps, p.steps),
                (&mut w.contacts, p.contacts),
                (&mut w.points, p.points),
            ] {
                if from.value > to.value {
                    *to = from;
                }
            }
        }
        println!("  {} shots, final state and steps equal in {}", w.shots, w.same);
        println!("  another answer {}, another termination {}", w.answers, w.terminations);
        println!("  final spots apart by more than 1e-12, 1e-9, 1e-6, 1 mm, 1 cm, 10 cm, 1 m, 10 m: {:?}", w.spots_over);
        for (what, l) in [
            ("final spot (m)", &w.spot),
            ("time (s)", &w.time),
            ("steps", &w.steps),
            ("contacts", &w.contacts),
            ("points", &w.points),
        ] {
            println!("  largest difference of {what}: {:e} (shot {}: {})", l.value, l.shot, l.note);
        }
    }
}
