//! The C doors over the reference: the mock libraries that show the comparison at work.

use dimple_ref::{ground::leaf::LEAVES, oracle, stand::Stand};
use std::slice::{from_raw_parts, from_raw_parts_mut};

#[cfg(door_capi)]
mod capi {
    use super::*;

    #[unsafe(no_mangle)]
    pub unsafe extern "C" fn dimple_settle(
        input: *const u8,
        input_len: usize,
        contacts: *mut f64,
        contacts_len: usize,
        points: *mut f64,
        points_len: usize,
        result: *mut f64,
        result_len: usize,
    ) -> u32 {
        unsafe {
            oracle::settle_door_by(
                false,
                from_raw_parts(input, input_len),
                from_raw_parts_mut(contacts, contacts_len),
                from_raw_parts_mut(points, points_len),
                from_raw_parts_mut(result, result_len),
            )
        }
    }

    #[unsafe(no_mangle)]
    pub unsafe extern "C" fn dimple_settle_fading(
        input: *const u8,
        input_len: usize,
        contacts: *mut f64,
        contacts_len: usize,
        points: *mut f64,
        points_len: usize,
        result: *mut f64,
        result_len: usize,
    ) -> u32 {
        unsafe {
            oracle::settle_door_by(
                true,
                from_raw_parts(input, input_len),
                from_raw_parts_mut(contacts, contacts_len),
                from_raw_parts_mut(points, points_len),
                from_raw_parts_mut(result, result_len),
            )
        }
    }

    #[unsafe(no_mangle)]
    pub unsafe extern "C" fn dimple_step(
        sheet: *const u8,
        sheet_len: usize,
        physics: *const f64,
        physics_len: usize,
        ball: *const f64,
        ball_len: usize,
        state: *mut f64,
        state_len: usize,
    ) -> u32 {
        unsafe {
            oracle::step_door(
                from_raw_parts(sheet, sheet_len),
                from_raw_parts(physics, physics_len),
                from_raw_parts(ball, ball_len),
                from_raw_parts_mut(state, state_len),
            )
        }
    }

    #[unsafe(no_mangle)]
    pub unsafe extern "C" fn dimple_impact(
        sheet: *const u8,
        sheet_len: usize,
        ball: *const f64,
        ball_len: usize,
        state: *mut f64,
        state_len: usize,
    ) -> u32 {
        unsafe {
            oracle::impact_door(
                from_raw_parts(sheet, sheet_len),
                from_raw_parts(ball, ball_len),
                from_raw_parts_mut(state, state_len),
            )
        }
    }

    #[unsafe(no_mangle)]
    pub unsafe extern "C" fn dimple_height(
        sheet: *const u8,
        sheet_len: usize,
        x: f64,
        z: f64,
        height: *mut f64,
        height_len: usize,
    ) -> u32 {
        unsafe { oracle::height_door(from_raw_parts(sheet, sheet_len), x, z, from_raw_parts_mut(height, height_len)) }
    }
}

#[cfg(door_probe)]
mod probe {
    use super::*;

    macro_rules! numbers {
        ($($name:ident($($a:ident),*) $body:expr;)*) => {
            $(#[unsafe(no_mangle)] pub extern "C" fn $name($($a: f64),*) -> f64 { $body })*
        };
    }
    numbers! {
        probe_root(x) x.root();
        probe_hypot(a, b) a.hypot_of(b);
        probe_cosine(x) x.cosine();
        probe_sine(x) x.sine();
        probe_arctangent(y, x) y.arctangent(x);
        probe_exponential(x) x.exponential();
        probe_min(a, b) a.min_of(b);
        probe_max(a, b) a.max_of(b);
        probe_clamp(x, lo, hi) { let y = if x < lo { lo } else { x }; if y > hi { hi } else { y } };
        probe_abs(x) x.abs();
        probe_signum(x) x.signum();
    }

    macro_rules! structs {
        ($($name:ident $leaf:literal;)*) => {
            $(#[unsafe(no_mangle)] pub unsafe extern "C" fn $name(i: *const f64, i_len: usize, o: *mut f64, o_len: usize) -> u32 {
                let leaf = LEAVES.iter().find(|l| l.0 == $leaf).unwrap();
                if i_len != leaf.1 || o_len != leaf.2 {
                    return 100;
                }
                unsafe { (leaf.3)(from_raw_parts(i, i_len), from_raw_parts_mut(o, o_len)) }
                0
            })*
        };
    }
    structs! {
        probe_impact "impact";
        probe_contact_step "contact_step";
        probe_flight_step "flight_step";
        probe_coefficient_at "coefficient_at";
        probe_speed_factor "speed_factor";
        probe_contact_angle "contact_angle";
        probe_cd_cl "cd_cl";
        probe_from_spin_vector "from_spin_vector";
        probe_acceleration "acceleration";
        probe_slide "slide";
        probe_onto_surface "onto_surface";
        probe_hermite "hermite";
        probe_parabola "parabola";
        probe_drop_time "drop_time";
        probe_hops_die_out "hops_die_out";
        probe_slip "slip";
        probe_lock_rolling "lock_rolling";
        probe_saturate_pivot "saturate_pivot";
        probe_tangential_gravity "tangential_gravity";
        probe_sample_holds "sample_holds";
    }
}
