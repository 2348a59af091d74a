// Functions of ground.rs, aero.rs and rk4.rs over slices of doubles, laid out as DOORS.md says.

use super::*;
use crate::aero::{AeroParams, BallModel};

pub type Leaf = (&'static str, usize, usize, fn(&[f64], &mut [f64]));

fn vec3(s: &[f64]) -> DVec3 {
    DVec3::new(s[0], s[1], s[2])
}

fn put(o: &mut [f64], v: DVec3) {
    o[0] = v.x;
    o[1] = v.y;
    o[2] = v.z;
}

fn truth(b: bool) -> f64 {
    if b { 1.0 } else { 0.0 }
}

pub fn restitution_of(kind: f64, e: f64) -> Restitution {
    if kind == 1.0 { Restitution::Penner2002 } else { Restitution::Constant(e) }
}

pub fn law_of(law: f64, v_ref: f64) -> RollLaw {
    if law == 1.0 {
        RollLaw::Quadratic { v_ref }
    } else if law == 2.0 {
        RollLaw::Exponential { v_ref }
    } else {
        RollLaw::Constant
    }
}

/// kind, e, mu_slide, mu_roll, law, v_ref, compliance, pivot
pub fn surface_of(s: &[f64]) -> Surface {
    Surface {
        restitution: restitution_of(s[0], s[1]),
        mu_slide: s[2],
        mu_roll: s[3],
        roll_law: law_of(s[4], s[5]),
        compliance: s[6],
        pivot: s[7],
    }
}

pub fn sample_of(s: &[f64]) -> GroundSample {
    GroundSample { height: s[0], normal: vec3(&s[1..]), surface: surface_of(&s[4..]), number: 0 }
}

pub fn ball_of(s: &[f64]) -> BallModel {
    BallModel {
        mass_kg: s[0],
        diameter_m: s[1],
        inertia_factor: s[2],
        cd_sub: s[3],
        cd_super: s[4],
        cd_spin: s[5],
        sr_sat: s[6],
        cl_sub: s[7],
        cl_super: s[8],
        sr_scale: s[9],
        re_crit: s[10],
        re_width: s[11],
    }
}

pub fn state_of(s: &[f64]) -> BallState {
    BallState { time: s[0], pos: vec3(&s[1..]), vel: vec3(&s[4..]), spin: vec3(&s[7..]) }
}

pub fn put_state(o: &mut [f64], s: &BallState) {
    o[0] = s.time;
    put(&mut o[1..], s.pos);
    put(&mut o[4..], s.vel);
    put(&mut o[7..], s.spin);
}

pub fn phase_number(p: Phase) -> f64 {
    match p {
        Phase::Hop => 0.0,
        Phase::Slide => 1.0,
        Phase::Roll => 2.0,
    }
}

fn flight(s: &[f64]) -> rk4::State {
    rk4::State { pos: vec3(s), vel: vec3(&s[3..]) }
}

fn put_flight(o: &mut [f64], s: &rk4::State) {
    put(o, s.pos);
    put(&mut o[3..], s.vel);
}

fn leaf_impact(i: &[f64], o: &mut [f64]) {
    put_state(o, &impact(&state_of(i), &sample_of(&i[10..]), &ball_of(&i[22..])));
}

fn leaf_contact_step(i: &[f64], o: &mut [f64]) {
    let (s, phase, rolling) = contact_step(&state_of(i), &sample_of(&i[10..]), &ball_of(&i[22..]), i[34], i[35], i[36]);
    put_state(o, &s);
    o[10] = phase_number(phase);
    o[11] = truth(rolling);
}

fn leaf_flight_step(i: &[f64], o: &mut [f64]) {
    let ball = ball_of(i);
    let aero = AeroParams::from_spin_vector(vec3(&i[12..]));
    let density = i[15];
    // the closure `accel` of `hop`
    let accel = |vel: DVec3| if density > 0.0 { ball.acceleration(vel, &aero, density) } else { GRAVITY };
    put_flight(o, &rk4::step(flight(&i[16..]), i[22], i[23], |_, v, _| accel(v)));
}

fn leaf_coefficient_at(i: &[f64], o: &mut [f64]) {
    o[0] = restitution_of(i[0], i[1]).coefficient_at(i[2]);
}

fn leaf_speed_factor(i: &[f64], o: &mut [f64]) {
    o[0] = law_of(i[0], i[1]).speed_factor(i[2]);
}

fn leaf_contact_angle(i: &[f64], o: &mut [f64]) {
    o[0] = Surface { compliance: i[0], ..Surface::GREEN }.contact_angle(i[1], i[2]);
}

fn leaf_cd_cl(i: &[f64], o: &mut [f64]) {
    (o[0], o[1]) = ball_of(i).cd_cl(i[12], i[13], i[14]);
}

fn leaf_from_spin_vector(i: &[f64], o: &mut [f64]) {
    let a = AeroParams::from_spin_vector(vec3(i));
    put(o, a.spin_axis);
    o[3] = a.spin_rate;
    o[4] = a.spin_decay;
}

fn leaf_acceleration(i: &[f64], o: &mut [f64]) {
    let aero = AeroParams { spin_axis: vec3(&i[15..]), spin_rate: i[18], spin_decay: 0.04 };
    put(o, ball_of(i).acceleration(vec3(&i[12..]), &aero, i[19]));
}

fn leaf_slide(i: &[f64], o: &mut [f64]) {
    let patch = Patch { n: vec3(i), g_t: vec3(&i[3..]), friction: i[6], radius: i[7], k: i[8], pivot_accel: vec3(&i[9..]) };
    let start = Motion { pos: vec3(&i[12..]), vel: vec3(&i[15..]), spin: vec3(&i[18..]) };
    let (m, h, rolls) = slide(&patch, start, i[21], i[22], i[23]);
    put(o, m.pos);
    put(&mut o[3..], m.vel);
    put(&mut o[6..], m.spin);
    o[9] = h;
    o[10] = truth(rolls);
}

fn leaf_onto_surface(i: &[f64], o: &mut [f64]) {
    put_state(o, &onto_surface(&state_of(i), &sample_of(&i[10..]), vec3(&i[22..]), i[25] != 0.0, i[26]));
}

fn leaf_hermite(i: &[f64], o: &mut [f64]) {
    put_flight(o, &hermite(flight(i), flight(&i[6..]), i[12], i[13]));
}

/// The arc of `hop` without air.
fn leaf_parabola(i: &[f64], o: &mut [f64]) {
    let (s, tau) = (flight(i), i[6]);
    put(o, s.pos + s.vel * tau + 0.5 * GRAVITY * tau * tau);
    put(&mut o[3..], s.vel + GRAVITY * tau);
}

fn leaf_drop_time(i: &[f64], o: &mut [f64]) {
    o[0] = drop_time(i[0], i[1]);
}

fn leaf_hops_die_out(i: &[f64], o: &mut [f64]) {
    o[0] = truth(hops_die_out(&state_of(i), &state_of(&i[10..]), &state_of(&i[20..]), vec3(&i[30..]), &ball_of(&i[33..]), i[45]));
}

fn leaf_slip(i: &[f64], o: &mut [f64]) {
    put(o, slip(vec3(i), vec3(&i[3..]), vec3(&i[6..]), i[9]));
}

fn leaf_lock_rolling(i: &[f64], o: &mut [f64]) {
    let (vel, spin) = lock_rolling(vec3(i), vec3(&i[3..]), vec3(&i[6..]), i[9], i[10]);
    put(o, vel);
    put(&mut o[3..], spin);
}

fn leaf_saturate_pivot(i: &[f64], o: &mut [f64]) {
    put(o, saturate_pivot(vec3(i), vec3(&i[3..]), vec3(&i[6..])));
}

fn leaf_tangential_gravity(i: &[f64], o: &mut [f64]) {
    put(o, tangential_gravity(vec3(i)));
}

fn leaf_sample_holds(i: &[f64], o: &mut [f64]) {
    o[0] = truth(sample_of(i).holds_at_rest());
}

/// Name, doubles in, doubles out, function. In DOORS.md's order.
pub const LEAVES: &[Leaf] = &[
    ("impact", 34, 10, leaf_impact),
    ("contact_step", 37, 12, leaf_contact_step),
    ("flight_step", 24, 6, leaf_flight_step),
    ("coefficient_at", 3, 1, leaf_coefficient_at),
    ("speed_factor", 3, 1, leaf_speed_factor),
    ("contact_angle", 3, 1, leaf_contact_angle),
    ("cd_cl", 15, 2, leaf_cd_cl),
    ("from_spin_vector", 3, 5, leaf_from_spin_vector),
    ("acceleration", 20, 3, leaf_acceleration),
    ("slide", 24, 11, leaf_slide),
    ("onto_surface", 27, 10, leaf_onto_surface),
    ("hermite", 14, 6, leaf_hermite),
    ("parabola", 7, 6, leaf_parabola),
    ("drop_time", 2, 1, leaf_drop_time),
    ("hops_die_out", 46, 1, leaf_hops_die_out),
    ("slip", 10, 3, leaf_slip),
    ("lock_rolling", 11, 6, leaf_lock_rolling),
    ("saturate_pivot", 9, 3, leaf_saturate_pivot),
    ("tangential_gravity", 3, 3, leaf_tangential_gravity),
    ("sample_holds", 12, 1, leaf_sample_holds),
];
