//! Writes replay.bin, a fixed list of inputs with the reference's answers, and looks.txt: to the folder given, or to the places in
//! the repository. See README.md.

mod shots;

use dimple_ref::added::{HIT_NAMES, take_hits};
use dimple_ref::oracle::{self, CONTACT, Outcome, POINT};
use shots::*;
use std::fmt::Write as _;

/// What an untouched list holds before each call.
const BEFORE: f64 = 1.0;

/// Two running sums over the bits of all lent doubles, contacts first: a += w; b += a (mod 2^64).
fn sums(contacts: &[f64], points: &[f64]) -> (u64, u64) {
    let (mut a, mut b) = (0u64, 0u64);
    for w in contacts.iter().chain(points) {
        a = a.wrapping_add(w.to_bits());
        b = b.wrapping_add(a);
    }
    (a, b)
}

struct Entry {
    case: Case,
    out: Outcome,
    hits: u128,
}

fn run(case: Case) -> Entry {
    take_hits();
    let out = oracle::settle(&case.bytes, case.contacts, case.points, false);
    Entry { case, out, hits: take_hits() }
}

impl Entry {
    fn bytes(&self) -> Vec<u8> {
        let (c, o) = (&self.case, &self.out);
        let mut contacts = vec![BEFORE; c.contacts];
        let mut points = vec![BEFORE; c.points];
        oracle::write_settle(o, &mut contacts, &mut points, &mut []);
        let (a, b) = sums(&contacts, &points);
        let mut words = vec![
            c.bytes.len() as u64,
            c.contacts as u64,
            c.points as u64,
            u64::from(o.answer),
            u64::from(o.termination),
            o.contacts.len() as u64,
            o.points.len() as u64,
            o.steps,
            o.evaluations.hop + o.evaluations.slide,
        ];
        words.extend(o.rest.iter().chain(&o.rect).map(|x| x.to_bits()));
        words.extend([a, b]);
        let mut rest: Vec<u8> = words.iter().flat_map(|w| w.to_le_bytes()).collect();
        rest.extend(&c.bytes);
        let mut all = (rest.len() as u64).to_le_bytes().to_vec();
        all.extend(rest);
        all
    }
}

/// The line of the program `settle`.
fn printed(o: &Outcome) -> String {
    if !o.accepted() {
        return format!("answer {}", o.answer);
    }
    let word = ["-", "rest", "time", "impacts"][o.termination as usize];
    format!("answer {} {word} contacts {} points {} steps {}", o.answer, o.contacts.len(), o.points.len(), o.steps)
}

/// Whether the lists are no longer than the program's own, 1280 and 7680 doubles. A case of `number_cases` is kept without this
/// test, and lends up to 7041.
fn fits(c: &Case) -> bool {
    c.contacts <= 64 * CONTACT && c.points <= 640 * POINT
}

/// Shorter lists that still are ample, so that an entry fits.
fn shortened(mut c: Case) -> Case {
    if c.contacts == AMPLE.0 * CONTACT {
        c.contacts = 64 * CONTACT;
    }
    if c.points == AMPLE.1 * POINT {
        c.points = 640 * POINT;
    }
    c
}

/// Exact boundaries of lists, steps, impacts and time around one shot.
fn boundaries(s: &Shot) -> Vec<Case> {
    let ran = ample_run(s, false);
    let (c, p, n) = (ran.contacts.len(), ran.points.len(), ran.steps);
    let mut out = Vec::new();
    for lend in [(c, p), (c.saturating_sub(1), p), (c, p.saturating_sub(1)), (0, p), (c, 0), (c, p / 2), (c / 2, p), (0, 0)] {
        out.push(Case::new("lists", s, lend));
    }
    for limit in [1, 2, n / 2, n.saturating_sub(1), n, n + 1] {
        out.push(Case::new("steps", &s.clone().with_word(STEP_LIMIT, limit.clamp(1, 2_000_000)), PROGRAM));
    }
    for most in [0, 1, 2, c as u64, c as u64 + 1] {
        out.push(Case::new("impacts", &s.clone().with_word(MAX_IMPACTS, most.min(64)), PROGRAM));
    }
    if p > 2 {
        // t_end at a point's time, and just about the tolerance around it; then with that many steps only
        for t in [ran.points[p / 2][0], ran.points[p - 1][0]] {
            for t in [t, up(t), down(t), t + 1e-9, t + 1.1e-9, t - 1e-9, t - 0.5 * s.get(DT)] {
                let late = s.clone().with(MAX_TIME, (t - s.get(TIME)).clamp(0.0, 600.0));
                let steps = ample_run(&late, false).steps;
                out.push(Case::new("time", &late, PROGRAM));
                // t_end met in the very pass that has no step left
                out.push(Case::new("time, no step left", &late.clone().with_word(STEP_LIMIT, steps.max(1)), PROGRAM));
                if steps > 1 {
                    out.push(Case::new("time, a step short", &late.with_word(STEP_LIMIT, steps - 1), PROGRAM));
                }
            }
        }
    }
    out
}

/// Shots with few steps: a bounce, a slide, a roll, slopes, air or none.
fn named_shots() -> Vec<Shot> {
    let mut out = Vec::new();
    for density in [1.225, 0.0] {
        for dt in [0.01, 0.001] {
            let mut s = bench().with(DT, dt).with(DENSITY, density).with_word(STEP_LIMIT, 2000);
            s = s.with3(VEL, [2.0, -3.0, 0.5]).with3(SPIN, [3.0, 20.0, 100.0]).with(MAX_TIME, 1.5);
            out.push(s.clone());
            s.areas = vec![
                area((-5.0, 0.5), (-5.0, 5.0), 0.0, 0.1, -0.05, 0),
                area((0.5, 1.5), (-5.0, 5.0), 0.1, -0.2, 0.1, 0),
                area((1.5, 50.0), (-5.0, 5.0), -0.3, 0.0, 0.0, 1),
            ];
            s.surfaces.push(surface(0, 0.4, 0.5, 0.3, 2, 2.0, 0.5, 0.002));
            out.push(s.clone());
            // a down-slope that keeps the ball going: a discarded hop
            s.areas = vec![area((-500.0, 500.0), (-500.0, 500.0), 0.0, -0.6, 0.1, 1)];
            s.surfaces[1] = surface(0, 0.8, 0.1, 0.05, 1, 3.0, 0.0, 0.0);
            out.push(s);
        }
    }
    out
}

fn main() {
    let given = std::env::args().nth(1);
    let dir = given.as_deref().unwrap_or("../crates/replay/data");
    let looks_dir = given.as_deref().unwrap_or("data");
    std::fs::write(format!("{looks_dir}/looks.txt"), looks()).expect("looks.txt");
    let mut r = Rng(20_260);
    let mut entries: Vec<Entry> = Vec::new();
    let mut seen = vec![0u32; 128];
    let mut by_answer = vec![0u32; 32];
    let mut keep = |e: Entry, entries: &mut Vec<Entry>, seen: &mut Vec<u32>| {
        for (i, n) in seen.iter_mut().enumerate() {
            *n += (e.hits >> i & 1) as u32;
        }
        by_answer[e.out.answer as usize] += 1;
        entries.push(e);
    };

    // fixed ones; the bench shots' lines are those of document 01
    let lines = [
        "answer 0 rest contacts 1 points 2 steps 1",
        "answer 0 time contacts 1 points 1 steps 0",
        "answer 0 impacts contacts 1 points 1 steps 0",
        "answer 0 impacts contacts 1 points 1 steps 0",
        "",
        "",
        "answer 23 - contacts 0 points 1 steps 1",
        "answer 5",
        "answer 4",
        "answer 6",
        "",
        "",
        "answer 1",
    ];
    for (c, line) in bench_cases().into_iter().zip(lines) {
        let e = run(c);
        assert!(line.is_empty() || printed(&e.out) == line, "{} instead of {line}", printed(&e.out));
        keep(e, &mut entries, &mut seen);
    }
    // one of every six, and all of some: numbers 1 to 8, then a few lengths, 12 among them
    for (i, c) in number_cases().into_iter().enumerate() {
        if i % 6 == 0 || ["list length", "max_impacts", "many impacts"].contains(&c.what) {
            keep(run(c), &mut entries, &mut seen);
        }
    }
    for c in length_cases(&mut r) {
        let len = c.bytes.len();
        let sheet = len.saturating_sub(240);
        if c.what != "sheet length" && len < 34_000
            || len == 34_049
            || c.what == "largest"
            || [0, 15, 16, 17, 79, 80, 81, 144, 272].contains(&sheet)
        {
            keep(run(c), &mut entries, &mut seen);
        }
    }
    for s in named_shots() {
        keep(run(Case::new("named", &s, PROGRAM)), &mut entries, &mut seen);
    }
    for s in named_shots().iter().take(6) {
        for c in boundaries(s).into_iter().filter(fits) {
            keep(run(c), &mut entries, &mut seen);
        }
    }
    for c in long_stop_cases().into_iter().chain(arrival_cases()) {
        keep(run(c), &mut entries, &mut seen);
    }

    // random ones, kept while they reach a place that has few entries so far
    for i in 0..60_000u64 {
        let cases = if i % 20 == 0 { beyond_cases(&mut r, false) } else { random_cases(&mut r, i) };
        for c in cases.into_iter().map(shortened).filter(fits) {
            if c.bytes.len() > 2400 {
                continue;
            }
            let e = run(c);
            if e.out.steps > 2000 || e.out.accepted() && e.hits == 0 {
                continue;
            }
            let rare = (0..128).any(|k| e.hits >> k & 1 == 1 && seen[k] < 12);
            if rare {
                keep(e, &mut entries, &mut seen);
            }
        }
    }
    let mut file = (entries.len() as u64).to_le_bytes().to_vec();
    for e in &entries {
        file.extend(e.bytes());
    }
    std::fs::write(format!("{dir}/replay.bin"), &file).expect("replay.bin");
    let total: u64 = entries.iter().map(|e| e.out.steps).sum();
    println!(
        "{} entries, {} bytes, {total} steps in all, most {}",
        entries.len(),
        file.len(),
        entries.iter().map(|e| e.out.steps).max().unwrap()
    );
    let a: Vec<String> = by_answer.iter().enumerate().filter(|(_, n)| **n > 0).map(|(i, n)| format!("{i}: {n}")).collect();
    println!("answers {}", a.join(", "));
    for t in 1..4 {
        let n = entries.iter().filter(|e| e.out.answer == 0 && e.out.termination == t).count();
        println!("termination {t}: {n}");
    }
    for (i, name) in HIT_NAMES.iter().enumerate() {
        println!("  {name:26} {}", seen[i]);
    }
}

/// Two short shots with sideways speed and every look of each.
fn looks() -> String {
    let mut text = String::from(
        "Every look of two short shots, in the order in which the Rust's `sample` was called.\n\
         Fields are decimal (shortest that reads back to the same double) and bit patterns in hexadecimal.\n",
    );
    for density in [1.225, 0.0] {
        let mut s = bench().with(DT, 0.01).with(DENSITY, density).with_word(STEP_LIMIT, 100);
        s.set(MAX_TIME, 0.04);
        s.set(MIN_HOP, 0.0004);
        s = s.with3(VEL, [1.0, -0.32, 0.5]).with3(SPIN, [0.0, 5.0, 20.0]);
        s.surfaces = vec![surface(0, 0.35, 0.4, 0.055, 1, 2.5, 0.0, 0.001)];
        let bytes = s.bytes();
        let out = oracle::settle(&bytes, 64 * CONTACT, 640 * POINT, true);
        take_hits();
        let names = [
            "dt",
            "stop_speed",
            "roll_threshold",
            "min_hop_height",
            "max_time",
            "max_impacts",
            "step_limit",
            "mass_kg",
            "diameter_m",
            "inertia_factor",
            "cd_sub",
            "cd_super",
            "cd_spin",
            "sr_sat",
            "cl_sub",
            "cl_super",
            "sr_scale",
            "re_crit",
            "re_width",
            "density",
            "time",
            "pos.x",
            "pos.y",
            "pos.z",
            "vel.x",
            "vel.y",
            "vel.z",
            "spin.x",
            "spin.y",
            "spin.z",
        ];
        let _ = writeln!(text, "\nShot in air of density {density}; 64 contacts and 640 points lent\n");
        for (i, name) in names.iter().enumerate() {
            let w = s.head[i];
            let _ = if i == MAX_IMPACTS || i == STEP_LIMIT {
                writeln!(text, "  {name} {w}")
            } else {
                writeln!(text, "  {name} {:?} {w:016x}", f64::from_bits(w))
            };
        }
        let _ = writeln!(
            text,
            "  surface: kind 0, e 0.35, mu_slide 0.4, mu_roll 0.055, law 1, v_ref 2.5, compliance 0, pivot 0.001; no patch"
        );
        let _ = writeln!(
            text,
            "\n  answer {} termination {} contacts {} points {} steps {} looks {}",
            out.answer,
            out.termination,
            out.contacts.len(),
            out.points.len(),
            out.steps,
            out.looks.len()
        );
        let _ = writeln!(text, "  final state {:?}", out.rest);
        let _ = writeln!(text, "  rectangle {:?}", out.rect);
        let _ = writeln!(text, "  rectangle bits {}", out.rect.map(|x| format!("{:016x}", x.to_bits())).join(" "));
        for (k, (x, z)) in out.looks.iter().enumerate() {
            let _ = writeln!(text, "  look {k:3}  {:016x} {:016x}   {x:?} {z:?}", x.to_bits(), z.to_bits());
        }
        let hex: Vec<String> = bytes.iter().map(|b| format!("{b:02x}")).collect();
        let _ = writeln!(text, "\n  input ({} bytes):", bytes.len());
        for line in hex.chunks(32) {
            let _ = writeln!(text, "  {}", line.concat());
        }
    }
    text
}
