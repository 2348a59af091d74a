//! What document 01 adds to a run: steps and their limit, the state and look tests, list limits,
//! the rectangle, and a log of the looks. build.py puts the calls into dimple's own functions.
//! A number from 20 to 23 leaves the run by unwinding (`Run::stop`), caught in oracle.rs.

use crate::ground::{BallState, Contact, GroundPoint, Terrain};
use std::cell::{Cell, RefCell};

/// Places of dimple's code whose visits are counted. `HIT_NAMES` has their names.
macro_rules! hits {
    ($($name:ident),* $(,)?) => {
        #[allow(non_camel_case_types, clippy::upper_case_acronyms)]
        #[derive(Clone, Copy, PartialEq, Eq, Debug)]
        #[repr(u8)]
        pub enum Hit { $($name),* }
        pub const HIT_NAMES: &[&str] = &[$(stringify!($name)),*];
    };
}

hits! {
    hop_flown, hop_discarded, discard_points_full, hop_late, impacts_end, drop_no_hop, drop_locked,
    ground_time, ground_time_no_step, time_with_no_steps_left, rest, stop_past_t_end, stop_not_held,
    crossing_1, crossing_2, crossing_3, crossing_4, crossing_5, crossing_6, crossing_7, crossing_8,
    start_below, hi_is_h, hi_is_h_clipped, guess_clamped, hop_shut_by_jump, hop_root_200,
    slide_root_search, slide_shut, slide_guess_dt, finish_level, finish_below_threshold, finish_tiny, rate_not_positive, slide_far, slide_full,
    rolls_in_step, stop_from_rest, stop_slow, starts_downhill, roll_step, exp_past_700,
    impact_grazing, impact_tilted_away, impact_slides, impact_grips, angle_capped, penner_fast, no_tangent,
    pivot_crosses_zero, onto_same, onto_rolling, onto_sliding, density_zero, no_lift, tiny_speed,
    full_20_impacts, full_20_hop, full_20_drop,
    full_21_out, full_21_impacts, full_21_hop, full_21_late, full_21_ground, full_21_ground_time, full_21_rest,
    state_22_impact, state_22_hop_step, state_22_arrival, state_22_drop, state_22_ground, state_22_step, state_22_impact_call,
    look_22_train, look_22_end, look_22_arc0, look_22_substep, look_22_hi_h, look_22_end_height, look_22_root, look_22_arrival, look_22_ground,
    look_22_point,
    limit_23_hop, limit_23_ground,
}

thread_local! {
    static HITS: Cell<u128> = const { Cell::new(0) };
}

#[inline]
pub fn hit(h: Hit) {
    HITS.with(|b| b.set(b.get() | (1u128 << (h as u8))));
}

#[inline]
pub fn hit_if(yes: bool, h: Hit) {
    if yes {
        hit(h);
    }
}

/// The places visited since the last call, one bit each.
pub fn take_hits() -> u128 {
    HITS.with(|b| b.replace(0))
}

/// Evaluations of a hop's searches and of a slide's.
#[derive(Clone, Copy, Default)]
pub struct Evaluations {
    pub hop: u64,
    pub slide: u64,
}

thread_local! {
    static EVALUATIONS: Cell<Evaluations> = const { Cell::new(Evaluations { hop: 0, slide: 0 }) };
}

/// One evaluation of find_root; `shut` names the search that it belongs to.
#[inline]
pub fn evaluation(shut: Hit) {
    EVALUATIONS.with(|e| {
        let mut n = e.get();
        if shut == Hit::slide_shut {
            n.slide += 1;
        } else {
            n.hop += 1;
        }
        e.set(n);
    });
}

/// Those made since the last call.
pub fn take_evaluations() -> Evaluations {
    EVALUATIONS.with(|e| e.replace(Evaluations::default()))
}

/// Carried by the unwinding that ends a run with 20 to 23.
pub struct Stop(pub u32);

pub struct Run {
    pub steps: Cell<u64>,
    pub step_limit: u64,
    pub good: Cell<BallState>,
    /// least x, greatest x, least z, greatest z
    pub rect: Cell<Option<[f64; 4]>>,
    pub contact_room: usize,
    pub point_room: usize,
    pub contacts: RefCell<Vec<Contact>>,
    /// each with its clearance (02, paper 12)
    pub points: RefCell<Vec<(GroundPoint, f64)>>,
    pub place: Cell<Hit>,
    pub looks: Option<RefCell<Vec<(f64, f64)>>>,
    /// Whether 22 is tested; `compare faults` turns it off to see what the Rust alone does.
    pub tested: bool,
    /// Whether the spin fades in the air: 02's paper 13.
    pub fading: Cell<bool>,
}

/// Finite and of magnitude at most 1,000,000.
pub fn coord_ok(x: f64) -> bool {
    x.is_finite() && x.abs() <= 1_000_000.0
}

pub fn state_ok(s: &BallState) -> bool {
    [s.time, s.pos.x, s.pos.y, s.pos.z, s.vel.x, s.vel.y, s.vel.z, s.spin.x, s.spin.y, s.spin.z].into_iter().all(coord_ok)
}

impl Run {
    pub fn new(start: BallState, step_limit: u64, contact_room: usize, point_room: usize, log: bool) -> Self {
        Self {
            steps: Cell::new(0),
            step_limit,
            good: Cell::new(start),
            rect: Cell::new(None),
            contact_room,
            point_room,
            contacts: RefCell::new(Vec::new()),
            points: RefCell::new(Vec::new()),
            place: Cell::new(Hit::look_22_train),
            looks: log.then(|| RefCell::new(Vec::new())),
            tested: true,
            fading: Cell::new(false),
        }
    }

    #[cold]
    pub fn stop(&self, number: u32, place: Hit) -> ! {
        hit(place);
        std::panic::resume_unwind(Box::new(Stop(number)))
    }

    /// Names the looks that follow, for the counts of 22.
    #[inline]
    pub fn at(&self, place: Hit) {
        self.place.set(place);
    }

    /// A look's test of its spot, then the rectangle.
    pub fn look(&self, x: f64, z: f64) {
        if self.tested && !(coord_ok(x) && coord_ok(z)) {
            self.stop(22, self.place.get());
        }
        self.rect.set(Some(match self.rect.get() {
            None => [x, x, z, z],
            Some([x_lo, x_hi, z_lo, z_hi]) => [
                if x < x_lo { x } else { x_lo },
                if x > x_hi { x } else { x_hi },
                if z < z_lo { z } else { z_lo },
                if z > z_hi { z } else { z_hi },
            ],
        }));
        if let Some(looks) = &self.looks {
            looks.borrow_mut().push((x, z));
        }
    }

    /// Number 22's test of a state just made.
    pub fn test(&self, state: BallState, place: Hit) -> BallState {
        if self.tested && !state_ok(&state) {
            self.stop(22, place);
        }
        self.good.set(state);
        state
    }

    /// A step is due: number 23 if none is left.
    pub fn due(&self, place: Hit) {
        if self.steps.get() == self.step_limit {
            self.stop(23, place);
        }
    }

    pub fn made(&self) {
        self.steps.set(self.steps.get() + 1);
    }

    pub fn push_contact(&self, list: &mut Vec<Contact>, record: Contact, place: Hit) {
        if list.len() == self.contact_room {
            self.stop(20, place);
        }
        list.push(record);
        self.contacts.borrow_mut().push(record);
    }

    /// 02, paper 12: the look at the point's spot, then the push. The Rust's own list keeps its own record.
    pub fn push_point(&self, terrain: &impl Terrain, list: &mut Vec<GroundPoint>, record: GroundPoint, place: Hit) {
        self.at(Hit::look_22_point);
        let clearance = record.pos.y - terrain.sample(record.pos.x, record.pos.z).height;
        if list.len() == self.point_room {
            self.stop(21, place);
        }
        list.push(record);
        self.points.borrow_mut().push((record, clearance));
    }

    pub fn truncate(&self, list: &mut Vec<GroundPoint>, mark: usize) {
        hit(Hit::hop_discarded);
        hit_if(list.len() == self.point_room, Hit::discard_points_full);
        list.truncate(mark);
        self.points.borrow_mut().truncate(mark);
    }
}
