//! The whole calls of document 01 over dimple's own physics: input tests 12, 8, 1 to 7 and 11,
//! the course's sheet, and settle, step, impact and height as callers see them.

use crate::added::{Evaluations, Hit, Run, Stop, coord_ok, hit, state_ok, take_evaluations};
use crate::aero::BallModel;
use crate::glam::DVec3;
use crate::ground::leaf::{ball_of, phase_number, put_state, state_of};
use crate::ground::{
    BallState, Contact, GroundModel, GroundPhysics, GroundPoint, GroundSample, Restitution, RollLaw, Surface, Termination,
    Terrain, impact,
};
use std::panic::{AssertUnwindSafe, catch_unwind};

pub const CONTACT: usize = 20;
pub const POINT: usize = 12;
pub const RESULT: usize = 20;
pub const HEAD: usize = 240;
pub const MOST: usize = 34_048;

/// One patch of a course.
#[derive(Clone, Copy)]
pub struct Area {
    pub x_lo: f64,
    pub x_hi: f64,
    pub z_lo: f64,
    pub z_hi: f64,
    pub h0: f64,
    pub a: f64,
    pub b: f64,
    pub number: u64,
}

pub struct Course {
    pub surfaces: Vec<Surface>,
    pub areas: Vec<Area>,
    pub run: Run,
}

impl Course {
    /// The sample at a spot, without the look's test and without the rectangle.
    pub fn ground_at(&self, x: f64, z: f64) -> GroundSample {
        for p in &self.areas {
            if p.x_lo <= x && x <= p.x_hi && p.z_lo <= z && z <= p.z_hi {
                return GroundSample {
                    height: (p.h0 + p.a * x) + p.b * z,
                    normal: DVec3::new(-p.a, 1.0, -p.b),
                    surface: self.surfaces[p.number as usize],
                    number: p.number,
                };
            }
        }
        GroundSample { height: 0.0, normal: DVec3::Y, surface: self.surfaces[0], number: 0 }
    }
}

impl Terrain for Course {
    fn sample(&self, x: f64, z: f64) -> GroundSample {
        self.run.look(x, z);
        self.ground_at(x, z)
    }

    fn run(&self) -> &Run {
        &self.run
    }
}

fn word(b: &[u8], at: usize) -> u64 {
    u64::from_le_bytes(b[at..at + 8].try_into().unwrap())
}

fn half(b: &[u8], at: usize) -> u64 {
    u64::from(u32::from_le_bytes(b[at..at + 4].try_into().unwrap()))
}

fn real(b: &[u8], at: usize) -> f64 {
    f64::from_bits(word(b, at))
}

fn within(lo: f64, hi: f64, x: f64) -> bool {
    lo <= x && x <= hi
}

type Parts = (Vec<Surface>, Vec<Area>);

/// Tests 1 to 3.
pub fn read_sheet(sheet: &[u8]) -> Result<Parts, u32> {
    if sheet.len() < 16 {
        return Err(1);
    }
    let (s, p) = (half(sheet, 0), half(sheet, 8));
    if !(1..=16).contains(&s) || half(sheet, 4) != 16 || p > 512 || half(sheet, 12) != 16 + 64 * s {
        return Err(1);
    }
    if sheet.len() as u64 != 16 + 64 * (s + p) {
        return Err(1);
    }
    let mut surfaces = Vec::with_capacity(s as usize);
    for i in 0..s as usize {
        let at = 16 + 64 * i;
        let restitution = match word(sheet, at) {
            0 if within(0.0, 1.0, real(sheet, at + 8)) => Restitution::Constant(real(sheet, at + 8)),
            1 => Restitution::Penner2002,
            _ => return Err(2),
        };
        let v_ref = real(sheet, at + 40);
        let v_ref_ok = within(0.01, 1000.0, v_ref);
        let roll_law = match word(sheet, at + 32) {
            0 => RollLaw::Constant,
            1 if v_ref_ok => RollLaw::Quadratic { v_ref },
            2 if v_ref_ok => RollLaw::Exponential { v_ref },
            _ => return Err(2),
        };
        let (mu_slide, mu_roll) = (real(sheet, at + 16), real(sheet, at + 24));
        let (compliance, pivot) = (real(sheet, at + 48), real(sheet, at + 56));
        let ok = within(0.0, 10.0, mu_slide) && within(0.0, 10.0, mu_roll) && within(0.0, 10.0, compliance);
        if !(ok && within(0.0, 1.0, pivot)) {
            return Err(2);
        }
        surfaces.push(Surface { restitution, mu_slide, mu_roll, roll_law, compliance, pivot });
    }
    let mut areas = Vec::with_capacity(p as usize);
    for i in 0..p as usize {
        let f = |k: usize| real(sheet, 16 + 64 * (s as usize + i) + 8 * k);
        let number = word(sheet, 16 + 64 * (s as usize + i) + 56);
        let area = Area { x_lo: f(0), x_hi: f(1), z_lo: f(2), z_hi: f(3), h0: f(4), a: f(5), b: f(6), number };
        let edges = [area.x_lo, area.x_hi, area.z_lo, area.z_hi];
        let ok = edges.iter().all(|&e| within(-100_000.0, 100_000.0, e))
            && area.x_lo <= area.x_hi
            && area.z_lo <= area.z_hi
            && within(-1000.0, 1000.0, area.h0)
            && within(-4.0, 4.0, area.a)
            && within(-4.0, 4.0, area.b)
            && number < s;
        if !ok {
            return Err(3);
        }
        areas.push(area);
    }
    Ok((surfaces, areas))
}

/// Test 5; the fields in `BallModel`'s order.
fn ball_ok(b: &[f64]) -> bool {
    let cd_cl = [b[3], b[4], b[5], b[7], b[8]];
    within(0.001, 1.0, b[0])
        && within(0.005, 0.5, b[1])
        && within(0.1, 1.0, b[2])
        && cd_cl.iter().all(|&c| within(0.0, 10.0, c))
        && within(0.001, 10.0, b[6])
        && within(0.001, 10.0, b[9])
        && within(0.0, 1e7, b[10])
        && within(1.0, 1e7, b[11])
}

/// Test 7; time, pos, vel, spin.
fn landing_ok(s: &[f64]) -> bool {
    within(0.0, 100_000.0, s[0])
        && s[1..4].iter().all(|&c| within(-100_000.0, 100_000.0, c))
        && s[4..7].iter().all(|&c| within(-200.0, 200.0, c))
        && s[7..10].iter().all(|&c| within(-5000.0, 5000.0, c))
}

/// What a settle gives, lists included.
pub struct Outcome {
    pub answer: u32,
    pub termination: u32,
    pub steps: u64,
    pub evaluations: Evaluations,
    pub rest: [f64; 10],
    pub rect: [f64; 4],
    pub contacts: Vec<[f64; CONTACT]>,
    pub points: Vec<[f64; POINT]>,
    pub looks: Vec<(f64, f64)>,
}

impl Outcome {
    fn refused(answer: u32) -> Self {
        Self {
            answer,
            termination: 0,
            steps: 0,
            evaluations: Evaluations::default(),
            rest: [0.0; 10],
            rect: [0.0; 4],
            contacts: Vec::new(),
            points: Vec::new(),
            looks: Vec::new(),
        }
    }

    pub fn accepted(&self) -> bool {
        matches!(self.answer, 0 | 20..=23)
    }
}

fn vec_into(o: &mut [f64], v: DVec3) {
    o[..3].copy_from_slice(&[v.x, v.y, v.z]);
}

fn contact_record(c: &Contact) -> [f64; CONTACT] {
    let mut o = [0.0; CONTACT];
    o[0] = c.time;
    vec_into(&mut o[1..], c.pos);
    vec_into(&mut o[4..], c.normal);
    o[7] = c.number as f64;
    vec_into(&mut o[8..], c.vel_in);
    vec_into(&mut o[11..], c.vel_out);
    vec_into(&mut o[14..], c.spin_in);
    vec_into(&mut o[17..], c.spin_out);
    o
}

fn point_record((p, clearance): &(GroundPoint, f64)) -> [f64; POINT] {
    let mut o = [0.0; POINT];
    o[0] = p.time;
    vec_into(&mut o[1..], p.pos);
    vec_into(&mut o[4..], p.vel);
    vec_into(&mut o[7..], p.spin);
    o[10] = phase_number(p.phase);
    o[11] = *clearance;
    o
}

/// A settle; list lengths count doubles.
pub fn settle(input: &[u8], contacts_len: usize, points_len: usize, log: bool) -> Outcome {
    settle_by(false, input, contacts_len, points_len, log)
}

/// The first settle, or the second, in which the spin fades.
pub fn settle_by(fading: bool, input: &[u8], contacts_len: usize, points_len: usize, log: bool) -> Outcome {
    if input.len() < HEAD || input.len() > MOST {
        return Outcome::refused(12);
    }
    if contacts_len % CONTACT != 0 || points_len % POINT != 0 {
        return Outcome::refused(8);
    }
    let (surfaces, areas) = match read_sheet(&input[HEAD..]) {
        Ok(parts) => parts,
        Err(number) => return Outcome::refused(number),
    };
    let f: [f64; 30] = std::array::from_fn(|i| real(input, 8 * i));
    let (max_impacts, step_limit) = (word(input, 40), word(input, 48));
    let physics_ok = within(0.0001, 0.01, f[0])
        && within(0.0, 1.0, f[1])
        && within(0.0, 1.0, f[2])
        && within(0.0, 1.0, f[3])
        && within(0.0, 600.0, f[4])
        && max_impacts <= 64
        && (1..=2_000_000).contains(&step_limit);
    if !physics_ok {
        return Outcome::refused(4);
    }
    if !ball_ok(&f[7..19]) {
        return Outcome::refused(5);
    }
    if !within(0.0, 10.0, f[19]) {
        return Outcome::refused(6);
    }
    if !landing_ok(&f[20..30]) {
        return Outcome::refused(7);
    }
    let run = Run::new(state_of(&f[20..30]), step_limit, contacts_len / CONTACT, points_len / POINT, log);
    run.fading.set(fading);
    settle_untested(&f, max_impacts, Course { surfaces, areas, run })
}

/// A settle whose input has passed its tests, or was never tested (`compare faults`).
pub fn settle_untested(f: &[f64; 30], max_impacts: u64, course: Course) -> Outcome {
    let landing = state_of(&f[20..30]);
    let physics = GroundPhysics {
        terrain: course,
        dt: f[0],
        stop_speed: f[1],
        roll_threshold: f[2],
        min_hop_height: f[3],
        max_impacts: max_impacts as usize,
        max_time: f[4],
    };
    let ball = ball_of(&f[7..19]);
    take_evaluations();
    let (answer, termination, rest) = ended(
        &physics.terrain.run,
        catch_unwind(AssertUnwindSafe(|| physics.settle(&landing, &ball, f[19]))).map(|r| (r.termination, r.rest)),
    );
    let run = physics.terrain.run;
    let mut state = [0.0; 10];
    put_state(&mut state, &rest);
    Outcome {
        answer,
        termination,
        steps: run.steps.get(),
        evaluations: take_evaluations(),
        rest: state,
        rect: run.rect.get().unwrap_or([0.0; 4]),
        contacts: run.contacts.borrow().iter().map(contact_record).collect(),
        points: run.points.borrow().iter().map(point_record).collect(),
        looks: run.looks.map(|l| l.into_inner()).unwrap_or_default(),
    }
}

fn ended(run: &Run, end: Result<(Termination, BallState), Box<dyn std::any::Any + Send>>) -> (u32, u32, BallState) {
    match end {
        Ok((termination, rest)) => {
            let number = match termination {
                Termination::Rest => 1,
                Termination::MaxTime => 2,
                Termination::MaxImpacts => 3,
            };
            (0, number, rest)
        }
        Err(stop) => (stopped(stop), 0, run.good.get()),
    }
}

fn stopped(stop: Box<dyn std::any::Any + Send>) -> u32 {
    match stop.downcast::<Stop>() {
        Ok(stop) => stop.0,
        Err(other) => std::panic::resume_unwind(other),
    }
}

/// `dimple_settle`.
pub fn settle_door(input: &[u8], contacts: &mut [f64], points: &mut [f64], result: &mut [f64]) -> u32 {
    settle_door_by(false, input, contacts, points, result)
}

/// `dimple_settle` and `dimple_settle_fading`.
pub fn settle_door_by(fading: bool, input: &[u8], contacts: &mut [f64], points: &mut [f64], result: &mut [f64]) -> u32 {
    let out = settle_by(fading, input, contacts.len(), points.len(), false);
    write_settle(&out, contacts, points, result);
    out.answer
}

/// Puts an outcome into lent lists and a lent result.
pub fn write_settle(out: &Outcome, contacts: &mut [f64], points: &mut [f64], result: &mut [f64]) {
    if out.accepted() {
        contacts.fill(0.0);
        points.fill(0.0);
        for (to, from) in contacts.chunks_exact_mut(CONTACT).zip(&out.contacts) {
            to.copy_from_slice(from);
        }
        for (to, from) in points.chunks_exact_mut(POINT).zip(&out.points) {
            to.copy_from_slice(from);
        }
    }
    if result.len() >= RESULT {
        result[0] = f64::from(out.answer);
        result[1] = f64::from(out.termination);
        result[2] = out.contacts.len() as f64;
        result[3] = out.points.len() as f64;
        result[4] = out.steps as f64;
        result[5..15].copy_from_slice(&out.rest);
        result[15..19].copy_from_slice(&out.rect);
        result[19] = (out.evaluations.hop + out.evaluations.slide) as f64;
    }
}

/// `dimple_step`: physics (3), ball (12), state and phase (11).
pub fn step_door(sheet: &[u8], physics: &[f64], ball: &[f64], state: &mut [f64]) -> u32 {
    if physics.len() != 3 || ball.len() != 12 || state.len() != 11 {
        return 100;
    }
    state[10] = 0.0;
    let (surfaces, areas) = match read_sheet(sheet) {
        Ok(parts) => parts,
        Err(number) => return number,
    };
    if !(within(0.0001, 0.01, physics[0]) && within(0.0, 1.0, physics[1]) && within(0.0, 1.0, physics[2])) {
        return 4;
    }
    if !ball_ok(ball) {
        return 5;
    }
    if !landing_ok(&state[..10]) {
        return 7;
    }
    let start = state_of(state);
    let run = Run::new(start, 1, 0, 0, false);
    let ground = GroundPhysics {
        dt: physics[0],
        stop_speed: physics[1],
        roll_threshold: physics[2],
        ..GroundPhysics::new(Course { surfaces, areas, run })
    };
    match catch_unwind(AssertUnwindSafe(|| ground.step(&start, &ball_of(ball)))) {
        Err(stop) => stopped(stop),
        Ok((next, _)) if !state_ok(&next) => {
            hit(Hit::state_22_step);
            22
        }
        Ok((next, phase)) => {
            put_state(state, &next);
            state[10] = phase_number(phase);
            0
        }
    }
}

/// `dimple_impact`: ball (12), state (10).
pub fn impact_door(sheet: &[u8], ball: &[f64], state: &mut [f64]) -> u32 {
    if ball.len() != 12 || state.len() != 10 {
        return 100;
    }
    let (surfaces, areas) = match read_sheet(sheet) {
        Ok(parts) => parts,
        Err(number) => return number,
    };
    if !ball_ok(ball) {
        return 5;
    }
    if !landing_ok(state) {
        return 7;
    }
    let start = state_of(state);
    let course = Course { surfaces, areas, run: Run::new(start, 1, 0, 0, false) };
    let ball: BallModel = ball_of(ball);
    let out = impact(&start, &course.sample(start.pos.x, start.pos.z), &ball);
    if !state_ok(&out) {
        hit(Hit::state_22_impact_call);
        return 22;
    }
    put_state(state, &out);
    0
}

/// `dimple_height`.
pub fn height_door(sheet: &[u8], x: f64, z: f64, height: &mut [f64]) -> u32 {
    if height.len() != 1 {
        return 100;
    }
    height[0] = 0.0;
    let (surfaces, areas) = match read_sheet(sheet) {
        Ok(parts) => parts,
        Err(number) => return number,
    };
    if !(coord_ok(x) && coord_ok(z)) {
        return 11;
    }
    let start = state_of(&[0.0; 10]);
    let course = Course { surfaces, areas, run: Run::new(start, 1, 0, 0, false) };
    height[0] = course.ground_at(x, z).height;
    0
}
