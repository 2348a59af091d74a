//! Holds libcapi and libprobe against the reference, bit for bit. See README.md.

mod aim;
mod board;
mod card;
mod faults;
#[cfg(all(has_guess_root, has_guess_look))]
mod guesses;
mod history;
mod leaves;
mod listen;
mod shelf;
mod shots;
mod speed;
mod unpatched;

use dimple_ref::added::{HIT_NAMES, take_hits};
use dimple_ref::oracle::{self, Outcome, RESULT};
use shots::*;
use std::sync::atomic::{AtomicBool, AtomicU64, Ordering};

#[cfg(has_dimple_settle)]
unsafe extern "C" {
    fn dimple_settle(
        input: *const u8,
        input_len: usize,
        contacts: *mut f64,
        contacts_len: usize,
        points: *mut f64,
        points_len: usize,
        result: *mut f64,
        result_len: usize,
    ) -> u32;
    #[cfg(has_dimple_settle_fading)]
    fn dimple_settle_fading(
        input: *const u8,
        input_len: usize,
        contacts: *mut f64,
        contacts_len: usize,
        points: *mut f64,
        points_len: usize,
        result: *mut f64,
        result_len: usize,
    ) -> u32;
    #[cfg(has_dimple_card)]
    fn dimple_card(
        input: *const u8,
        input_len: usize,
        contacts: *mut f64,
        contacts_len: usize,
        points: *mut f64,
        points_len: usize,
        result: *mut f64,
        result_len: usize,
        page: *mut u8,
        page_len: usize,
    ) -> u32;
    fn dimple_step(
        sheet: *const u8,
        sheet_len: usize,
        physics: *const f64,
        physics_len: usize,
        ball: *const f64,
        ball_len: usize,
        state: *mut f64,
        state_len: usize,
    ) -> u32;
    fn dimple_impact(
        sheet: *const u8,
        sheet_len: usize,
        ball: *const f64,
        ball_len: usize,
        state: *mut f64,
        state_len: usize,
    ) -> u32;
    fn dimple_height(sheet: *const u8, sheet_len: usize, x: f64, z: f64, height: *mut f64, height_len: usize) -> u32;
}

/// Without libcapi only the modes that do not need it run.
#[cfg(not(has_dimple_settle))]
mod missing {
    fn none() -> u32 {
        println!("libcapi was not there when this was built");
        std::process::exit(2);
    }
    type N = usize;
    type P = *const f64;
    type M = *mut f64;
    pub unsafe fn dimple_settle(_: *const u8, _: N, _: M, _: N, _: M, _: N, _: M, _: N) -> u32 {
        none()
    }
    pub unsafe fn dimple_step(_: *const u8, _: N, _: P, _: N, _: P, _: N, _: M, _: N) -> u32 {
        none()
    }
    pub unsafe fn dimple_impact(_: *const u8, _: N, _: P, _: N, _: M, _: N) -> u32 {
        none()
    }
    pub unsafe fn dimple_height(_: *const u8, _: N, _: f64, _: f64, _: M, _: N) -> u32 {
        none()
    }
}
#[cfg(not(has_dimple_settle))]
use missing::*;

pub fn lib_settle(input: &[u8], contacts: &mut [f64], points: &mut [f64], result: &mut [f64]) -> u32 {
    unsafe {
        dimple_settle(
            input.as_ptr(),
            input.len(),
            contacts.as_mut_ptr(),
            contacts.len(),
            points.as_mut_ptr(),
            points.len(),
            result.as_mut_ptr(),
            result.len(),
        )
    }
}

#[cfg(has_dimple_settle_fading)]
pub fn lib_settle_fading(input: &[u8], contacts: &mut [f64], points: &mut [f64], result: &mut [f64]) -> u32 {
    unsafe {
        dimple_settle_fading(
            input.as_ptr(),
            input.len(),
            contacts.as_mut_ptr(),
            contacts.len(),
            points.as_mut_ptr(),
            points.len(),
            result.as_mut_ptr(),
            result.len(),
        )
    }
}

#[cfg(not(has_dimple_settle_fading))]
pub fn lib_settle_fading(_: &[u8], _: &mut [f64], _: &mut [f64], _: &mut [f64]) -> u32 {
    println!("the library has no dimple_settle_fading");
    std::process::exit(2);
}

#[cfg(has_dimple_card)]
pub fn lib_card(input: &[u8], contacts: &mut [f64], points: &mut [f64], result: &mut [f64], page: &mut [u8]) -> u32 {
    unsafe {
        dimple_card(
            input.as_ptr(),
            input.len(),
            contacts.as_mut_ptr(),
            contacts.len(),
            points.as_mut_ptr(),
            points.len(),
            result.as_mut_ptr(),
            result.len(),
            page.as_mut_ptr(),
            page.len(),
        )
    }
}

/// The mock library has no card.
#[cfg(not(has_dimple_card))]
pub fn lib_card(_: &[u8], _: &mut [f64], _: &mut [f64], _: &mut [f64], _: &mut [u8]) -> u32 {
    println!("the library has no dimple_card: build with --libs");
    std::process::exit(2);
}

pub fn lib_step(sheet: &[u8], physics: &[f64], ball: &[f64], state: &mut [f64]) -> u32 {
    unsafe {
        dimple_step(
            sheet.as_ptr(),
            sheet.len(),
            physics.as_ptr(),
            physics.len(),
            ball.as_ptr(),
            ball.len(),
            state.as_mut_ptr(),
            state.len(),
        )
    }
}

pub fn lib_impact(sheet: &[u8], ball: &[f64], state: &mut [f64]) -> u32 {
    unsafe { dimple_impact(sheet.as_ptr(), sheet.len(), ball.as_ptr(), ball.len(), state.as_mut_ptr(), state.len()) }
}

pub fn lib_height(sheet: &[u8], x: f64, z: f64, height: &mut [f64]) -> u32 {
    unsafe { dimple_height(sheet.as_ptr(), sheet.len(), x, z, height.as_mut_ptr(), height.len()) }
}

/// A difference ends the run (`--first`) or is counted.
static FIRST_ONLY: AtomicBool = AtomicBool::new(false);
pub static DIFFERENCES: AtomicU64 = AtomicU64::new(0);

pub fn different(what: &str, detail: String, input: &[u8]) {
    let n = DIFFERENCES.fetch_add(1, Ordering::Relaxed);
    if n < 20 {
        let file = format!("{}/different-{n}.bin", std::env::temp_dir().display());
        let _ = std::fs::write(&file, input);
        println!("DIFFERENT {what}: {detail}; input in {file}");
    }
    if FIRST_ONLY.load(Ordering::Relaxed) {
        std::process::exit(1);
    }
}

/// Guard doubles past each lent slice; they must stay.
const GUARD: usize = 4;

struct Lent {
    expected: Vec<f64>,
    given: Vec<f64>,
}

impl Lent {
    fn new(r: &mut Rng, len: usize) -> Self {
        let seed = r.next();
        let expected: Vec<f64> = (0..len + GUARD).map(|i| f64::from_bits(seed.rotate_left(i as u32) ^ (i as u64) << 3)).collect();
        Self { given: expected.clone(), expected }
    }
    fn differs(&self) -> Option<usize> {
        (0..self.given.len()).find(|&i| self.given[i].to_bits() != self.expected[i].to_bits())
    }
    fn shown(&self, i: usize) -> String {
        format!("at {i}: {:?} expected {:?}", self.given[i], self.expected[i])
    }
}

pub struct Counts {
    answers: [u64; 128],
    terminations: [u64; 4],
    hits: Vec<u64>,
    cases: u64,
    steps: u64,
    hop_evaluations: u64,
    slide_evaluations: u64,
    with_hop: u64,
    with_slide: u64,
    histories: u64,
}

impl Default for Counts {
    fn default() -> Self {
        Self {
            answers: [0; 128],
            terminations: [0; 4],
            hits: vec![0; 128],
            cases: 0,
            steps: 0,
            hop_evaluations: 0,
            slide_evaluations: 0,
            with_hop: 0,
            with_slide: 0,
            histories: 0,
        }
    }
}

impl Counts {
    fn add_hits(&mut self) {
        let h = take_hits();
        for (i, n) in self.hits.iter_mut().enumerate() {
            *n += (h >> i & 1) as u64;
        }
    }
    fn count(&mut self, out: &Outcome) {
        self.cases += 1;
        self.steps += out.steps;
        self.hop_evaluations += out.evaluations.hop;
        self.slide_evaluations += out.evaluations.slide;
        self.with_hop += u64::from(out.evaluations.hop > 0);
        self.with_slide += u64::from(out.evaluations.slide > 0);
        self.answers[out.answer as usize] += 1;
        if out.answer == 0 {
            self.terminations[out.termination as usize] += 1;
        }
        self.add_hits();
    }
    fn merge(&mut self, o: &Counts) {
        for i in 0..128 {
            self.answers[i] += o.answers[i];
            self.hits[i] += o.hits[i];
        }
        for i in 0..4 {
            self.terminations[i] += o.terminations[i];
        }
        self.cases += o.cases;
        self.steps += o.steps;
        self.hop_evaluations += o.hop_evaluations;
        self.slide_evaluations += o.slide_evaluations;
        self.with_hop += o.with_hop;
        self.with_slide += o.with_slide;
        self.histories += o.histories;
    }
    fn print_answers(&self) {
        println!("cases {} steps {} histories {}", self.cases, self.steps, self.histories);
        let a: Vec<String> = self.answers.iter().enumerate().filter(|(_, n)| **n > 0).map(|(i, n)| format!("{i}: {n}")).collect();
        println!("answers {}", a.join(", "));
        println!("terminations rest {} time {} impacts {}", self.terminations[1], self.terminations[2], self.terminations[3]);
    }
    fn print(&self) {
        self.print_answers();
        let share = |n: u64| 100.0 * n as f64 / self.cases.max(1) as f64;
        println!(
            "evaluations of hops {} (in {:.2}% of the calls), of slides {} (in {:.2}%)",
            self.hop_evaluations,
            share(self.with_hop),
            self.slide_evaluations,
            share(self.with_slide)
        );
        println!("branches (runs that reached each):");
        for (i, name) in HIT_NAMES.iter().enumerate() {
            println!("  {name:26} {}", self.hits[i]);
        }
    }
}

/// One settle on both sides, by the first settle or the fading one; list lengths count doubles.
fn check(r: &mut Rng, c: &mut Counts, fading: bool, what: &str, input: &[u8], contacts_len: usize, points_len: usize) -> Outcome {
    let result_len = if r.chance(20) { r.below(24) } else { RESULT };
    let mut contacts = Lent::new(r, contacts_len);
    let mut points = Lent::new(r, points_len);
    let mut result = Lent::new(r, result_len);
    take_hits();
    let out = oracle::settle_by(fading, input, contacts_len, points_len, false);
    oracle::write_settle(
        &out,
        &mut contacts.expected[..contacts_len],
        &mut points.expected[..points_len],
        &mut result.expected[..result_len],
    );
    let call = if fading { lib_settle_fading } else { lib_settle };
    let answer = call(input, &mut contacts.given[..contacts_len], &mut points.given[..points_len], &mut result.given[..result_len]);
    if answer != out.answer {
        different(what, format!("answer {answer}, expected {} (lists {contacts_len}, {points_len})", out.answer), input);
    } else {
        for (name, l) in [("result", &result), ("contacts", &contacts), ("points", &points)] {
            if let Some(i) = l.differs() {
                let lists = format!("(answer {answer}, lists {contacts_len}, {points_len})");
                different(what, format!("{name} {} {lists}", l.shown(i)), input);
                break;
            }
        }
    }
    if answer == 0 && result_len >= RESULT {
        c.histories += 1;
        if let Some(f) = history::fault(input, &contacts.given[..contacts_len], &points.given[..points_len], &result.given) {
            different(what, format!("HISTORY {f}"), input);
        }
    }
    c.count(&out);
    out
}

fn check_all(r: &mut Rng, c: &mut Counts, fading: bool, cases: Vec<Case>) {
    for k in cases {
        check(r, c, fading, k.what, &k.bytes, k.contacts, k.points);
    }
}

/// The random part: one seed, any number of shots.
fn random_part(seed: u64, shots: u64, fading: bool, c: &mut Counts) {
    let mut r = Rng(seed);
    for i in 0..shots {
        let cases = random_cases(&mut r, i);
        check_all(&mut r, c, fading, cases);
    }
}

/// step, impact and height.
fn doors_part(seed: u64, cases: u64, c: &mut Counts) {
    let mut r = Rng(seed);
    let r = &mut r;
    for _ in 0..cases {
        let mut s = if r.chance(6) { wild_shot(r) } else { random_shot(r) };
        if s.areas.len() > 16 && !r.chance(20) {
            s.areas.truncate(16);
        }
        if r.chance(4) {
            change_field(r, &mut s);
        }
        let mut sheet = s.sheet();
        if r.chance(10) {
            damage(r, &mut sheet);
        }
        let mut ball: Vec<f64> = (0..12).map(|i| s.get(BALL + i)).collect();
        if r.chance(50) {
            ball.pop();
        }
        let state: Vec<f64> = (0..10).map(|i| s.get(TIME + i)).collect();
        let mut physics: Vec<f64> = vec![s.get(DT), s.get(STOP_SPEED), s.get(ROLL_THRESHOLD)];
        if r.chance(50) {
            physics.push(0.0);
        }
        let all: Vec<u8> = s.bytes();
        take_hits();
        // step
        let len = if r.chance(30) { r.below(14) } else { 11 };
        let mut lent = Lent::new(r, len);
        for (i, x) in state.iter().enumerate().take(len) {
            lent.expected[i] = *x;
            lent.given[i] = *x;
        }
        let want = oracle::step_door(&sheet, &physics, &ball, &mut lent.expected[..len]);
        let got = lib_step(&sheet, &physics, &ball, &mut lent.given[..len]);
        if want != got {
            different("step", format!("answer {got}, expected {want}"), &all);
        } else if let Some(i) = lent.differs() {
            different("step", lent.shown(i), &all);
        }
        c.answers[want as usize] += 1;
        // impact
        let len = if r.chance(30) { r.below(14) } else { 10 };
        let mut lent = Lent::new(r, len);
        for (i, x) in state.iter().enumerate().take(len) {
            lent.expected[i] = *x;
            lent.given[i] = *x;
        }
        let want = oracle::impact_door(&sheet, &ball, &mut lent.expected[..len]);
        let got = lib_impact(&sheet, &ball, &mut lent.given[..len]);
        if want != got {
            different("impact", format!("answer {got}, expected {want}"), &all);
        } else if let Some(i) = lent.differs() {
            different("impact", lent.shown(i), &all);
        }
        c.answers[want as usize] += 1;
        // height
        let (x, z) = match r.below(4) {
            0 => (edge_value(r, -1e6, 1e6), edge_value(r, -1e6, 1e6)),
            1 if !s.areas.is_empty() => {
                let a = s.areas[r.below(s.areas.len())];
                (f64::from_bits(a[r.below(2)]), f64::from_bits(a[2 + r.below(2)]))
            }
            _ => (s.get(POS) + r.range(-3.0, 3.0), s.get(POS + 2) + r.range(-3.0, 3.0)),
        };
        let len = if r.chance(30) { r.below(3) } else { 1 };
        let mut lent = Lent::new(r, len);
        let want = oracle::height_door(&sheet, x, z, &mut lent.expected[..len]);
        let got = lib_height(&sheet, x, z, &mut lent.given[..len]);
        if want != got {
            different("height", format!("answer {got}, expected {want} at {x:?} {z:?}"), &all);
        } else if let Some(i) = lent.differs() {
            different("height", lent.shown(i), &all);
        }
        c.answers[want as usize] += 1;
        c.cases += 3;
        c.add_hits();
    }
}

pub fn threads<T: Send>(n: u64, work: impl Fn(u64) -> T + Sync) -> Vec<T> {
    let work = &work;
    std::thread::scope(|s| {
        let all: Vec<_> = (0..n).map(|i| s.spawn(move || work(i))).collect();
        all.into_iter().map(|t| t.join().expect("a thread of the comparison failed")).collect()
    })
}

fn settle_mode(seed: u64, shots: u64, fading: bool, n: u64) {
    println!("{}: seed {seed}, {shots} shots, {n} threads", if fading { "fading" } else { "settle" });
    let mut total = Counts::default();
    for c in threads(n, |i| {
        let mut c = Counts::default();
        let mut r = Rng(seed.wrapping_mul(1000) + 500 + i);
        if i == 0 {
            for cases in [bench_cases(), length_cases(&mut r), number_cases()] {
                check_all(&mut r, &mut c, fading, cases);
            }
        }
        for _ in 0..shots / 200 / n {
            let cases = list_cases(&mut r);
            check_all(&mut r, &mut c, fading, cases);
        }
        random_part(seed.wrapping_mul(1000) + i, shots / n, fading, &mut c);
        for k in 0..shots / 40 / n {
            let cases = beyond_cases(&mut r, k % 400 == 0);
            check_all(&mut r, &mut c, fading, cases);
        }
        c
    }) {
        total.merge(&c);
    }
    total.print();
}

/// Holds the library against a file that make_replay wrote.
fn replay_mode(file: &str) {
    let bytes = std::fs::read(file).expect("the replay's file");
    let word = |at: usize| u64::from_le_bytes(bytes[at..at + 8].try_into().expect("eight bytes"));
    let count = word(0);
    let mut at = 8;
    for n in 0..count {
        let len = word(at) as usize;
        let w = |i: usize| word(at + 8 + 8 * i);
        let input = &bytes[at + 8 + 8 * 25..at + 8 + 8 * 25 + w(0) as usize];
        assert_eq!(len, 8 * 25 + input.len());
        let mut contacts = vec![1.0; w(1) as usize];
        let mut points = vec![1.0; w(2) as usize];
        let mut result = [1.0; RESULT];
        let answer = lib_settle(input, &mut contacts, &mut points, &mut result);
        let (mut a, mut b) = (0u64, 0u64);
        for x in contacts.iter().chain(&points) {
            a = a.wrapping_add(x.to_bits());
            b = b.wrapping_add(a);
        }
        let mut got = vec![u64::from(answer)];
        got.extend(result[1..5].iter().map(|x| *x as u64));
        got.push(result[19] as u64);
        got.extend(result[5..19].iter().map(|x| x.to_bits()));
        got.extend([a, b]);
        if let Some(i) = (0..got.len()).find(|&i| got[i] != w(3 + i)) {
            different("replay", format!("entry {n}, word {}: {:x} expected {:x}", 3 + i, got[i], w(3 + i)), input);
        }
        at += 8 + len;
    }
    assert_eq!(at, bytes.len());
    println!("replay: {count} entries of {file}");
}

fn doors_mode(seed: u64, cases: u64, n: u64) {
    println!("doors: seed {seed}, {cases} cases of step, impact and height, {n} threads");
    let mut total = Counts::default();
    for c in threads(n, |i| {
        let mut c = Counts::default();
        doors_part(seed.wrapping_mul(1000) + 700 + i, cases / n, &mut c);
        c
    }) {
        total.merge(&c);
    }
    total.print();
}

fn main() {
    let args: Vec<String> = std::env::args().skip(1).collect();
    let value = |name: &str, default: u64| {
        args.iter()
            .position(|a| a == name)
            .and_then(|i| args.get(i + 1))
            .map_or(default, |v| v.replace('_', "").parse().expect("a number"))
    };
    FIRST_ONLY.store(args.iter().any(|a| a == "--first"), Ordering::Relaxed);
    let seed = value("--seed", 1);
    let n = value("--threads", 2).max(1);
    match args.first().map(String::as_str) {
        Some("settle") => settle_mode(seed, value("--shots", 100_000), false, n),
        Some("fading") => settle_mode(seed, value("--shots", 100_000), true, n),
        Some("card") => card::run(seed, value("--cards", 100_000), n),
        Some("doors") => doors_mode(seed, value("--cases", 200_000), n),
        Some("board") => board::run(seed, value("--calls", 500_000), n),
        Some("aim") => aim::run(seed, value("--cases", 20_000), value("--grids", 20), n),
        Some("leaves") => leaves::run(seed, value("--share", 100), n, args.get(1).map_or("", |a| a.as_str())),
        Some("listen") => listen::run(seed, value("--cases", 1_000_000), n),
        Some("shelf") => shelf::run(seed, value("--calls", 200_000), n),
        Some("replay") => replay_mode(args.get(1).map_or("../crates/replay/data/replay.bin", |a| a.as_str())),
        Some("speed") => speed::run(),
        Some("faults") => faults::run(),
        Some("unpatched") => unpatched::run(seed, value("--shots", 100_000), n),
        _ => {
            println!(
                "compare settle [--shots N] | doors [--cases N] | aim [--cases N] [--grids N] | board [--calls N] | card [--cards N] | leaves [NAME] [--share PERCENT] | listen [--cases N] | shelf [--calls N] | replay [FILE] | speed | faults | unpatched [--shots N]"
            );
            println!("        [--seed N] [--threads N] [--first]");
            std::process::exit(2);
        }
    }
    let d = DIFFERENCES.load(Ordering::Relaxed);
    println!("{d} differences");
    std::process::exit(i32::from(d > 0));
}
