"""The substitutions that put document 01's stand-ins and additions into dimple's sources.

Each entry is (old text, new text, how often the old text must stand in the file). build.py stops
when a count differs, so a changed source is noticed. `RUN` is short for the run's bookkeeping.
"""

RUN = "self.terrain.run()"
HIT = "crate::added::Hit"


def push(kind, what, place):
    """A push of settle or hop, with the limit of the lent list; of a point, with its look first (02, paper 12)."""
    terrain = "&self.terrain, " if kind == "point" else ""
    return f"{RUN}.push_{kind}({terrain}&mut {kind}s, {what}, {HIT}::{place});"


# std's methods on f64 -> document 01's stand-ins (src/stand.rs)
STAND_INS = {
    "aero.rs": [(".exp()", ".exponential()", 3)],
    "ground.rs": [
        (".exp()", ".exponential()", 2),
        (".hypot(", ".hypot_of(", 1),
        (".atan2(", ".arctangent(", 1),
        (".cos()", ".cosine()", 1),
        (".sin()", ".sine()", 1),
        (".sqrt()", ".root()", 1),
        (".min(", ".min_of(", 8),
        (".max(", ".max_of(", 4),
    ],
}

# where things are
IMPORTS = {
    "aero.rs": [("use glam::DVec3;\n", "use crate::glam::DVec3;\nuse crate::stand::Stand;\n", 1)],
    "rk4.rs": [("use glam::DVec3;\n", "use crate::glam::DVec3;\n", 1)],
    "ground.rs": [
        ("\nuse glam::DVec3;\n", "\nuse crate::added::{hit, hit_if};\nuse crate::glam::DVec3;\nuse crate::stand::Stand;\n", 1),
    ],
}

# document 01's additions
ADDITIONS = {
    "ground.rs": [
        # the sample and the contact carry their surface's number
        ("    /// Material at this location.\n    pub surface: Surface,\n",
         "    /// Material at this location.\n    pub surface: Surface,\n    pub number: u64,\n", 1),
        ("            surface: *self,\n", "            surface: *self,\n            number: 0,\n", 1),
        ("    /// Surface at the contact point.\n    pub surface: Surface,\n",
         "    /// Surface at the contact point.\n    pub surface: Surface,\n    pub number: u64,\n", 1),
        ("            surface: at.surface,\n", "            surface: at.surface,\n            number: at.number,\n", 1),
        # the run's bookkeeping is reached through the terrain
        ("    fn sample(&self, x: f64, z: f64) -> GroundSample;\n",
         "    fn sample(&self, x: f64, z: f64) -> GroundSample;\n"
         "    fn run(&self) -> &crate::added::Run {\n        unreachable!()\n    }\n", 1),
        # hop: step_limit, the step's count, its state's test, the looks' places, the point's limit
        ("            let h = self.dt.min(t_end - t);\n            let b = rk4::step(s, t, h, |_, v, _| accel(v));\n"
         "            let end = self.clearance(b.pos);\n",
         f"            {RUN}.due({HIT}::limit_23_hop);\n"
         "            let h = self.dt.min(t_end - t);\n            let b = rk4::step(s, t, h, |_, v, _| accel(v));\n"
         f"            {RUN}.made();\n"
         f"            {RUN}.test(BallState {{ time: t + h, pos: b.pos, vel: b.vel, spin: start.spin }}, {HIT}::state_22_hop_step);\n"
         f"            {RUN}.at({HIT}::look_22_end);\n"
         "            let end = self.clearance(b.pos);\n"
         f"            {RUN}.at({HIT}::look_22_arc0);\n", 1),
        ("                points.push(GroundPoint::new(&sample, Phase::Hop));\n",
         f"                {RUN}.push_point(&self.terrain, points, GroundPoint::new(&sample, Phase::Hop), {HIT}::full_21_hop);\n", 1),
        # hop_arrival: the looks' places, the arrival's test
        ("        let (lo, (hi, f_hi)) = first_crossing(clearance, h, clearance(0.0), end)?;\n",
         "        let f_start = clearance(0.0);\n"
         f"        {RUN}.at({HIT}::look_22_substep);\n"
         "        let (lo, (hi, f_hi)) = first_crossing(clearance, h, f_start, end)?;\n"
         f"        hit_if(f_start <= 0.0, {HIT}::start_below);\n"
         f"        hit_if(hi == h, {HIT}::hi_is_h);\n"
         f"        {RUN}.at({HIT}::look_22_hi_h);\n", 1),
        ("        let end_height = self.sample(arc(h).pos).height;\n",
         f"        {RUN}.at({HIT}::look_22_end_height);\n"
         "        let end_height = self.sample(arc(h).pos).height;\n"
         f"        {RUN}.at({HIT}::look_22_root);\n", 1),
        ("        let tau = find_root(clearance, lo, (hi, f_hi), guess);\n",
         f"        let tau = find_root(clearance, lo, (hi, f_hi), guess, {HIT}::hop_shut_by_jump);\n", 1),
        ("        pos.y = self.sample(pos).height;\n        Some(BallState {\n"
         "            time: t + tau,\n            pos,\n            vel: arrival.vel,\n            spin,\n        })\n",
         f"        {RUN}.at({HIT}::look_22_arrival);\n"
         "        pos.y = self.sample(pos).height;\n"
         f"        Some({RUN}.test(BallState {{\n"
         "            time: t + tau,\n            pos,\n            vel: arrival.vel,\n            spin,\n"
         f"        }}, {HIT}::state_22_arrival))\n", 1),
        # settle, train of impacts
        ("            let at = self.sample(state.pos);\n            let n = at.normal.normalize();\n"
         "            let out = impact(&state, &at, ball);\n",
         f"            {RUN}.at({HIT}::look_22_train);\n"
         "            let at = self.sample(state.pos);\n            let n = at.normal.normalize();\n"
         "            let out = impact(&state, &at, ball);\n"
         f"            {RUN}.test(out, {HIT}::state_22_impact);\n", 1),
        ("                    contacts.push(Contact::new(&state, &at, &out));\n"
         "                    points.push(GroundPoint::new(&out, Phase::Hop));\n",
         f"                    hit({HIT}::impacts_end);\n"
         f"                    {push('contact', 'Contact::new(&state, &at, &out)', 'full_20_impacts')}\n"
         f"                    {push('point', 'GroundPoint::new(&out, Phase::Hop)', 'full_21_impacts')}\n", 1),
        ("                points.push(GroundPoint::new(&out, Phase::Hop));\n                flown = match",
         f"                {push('point', 'GroundPoint::new(&out, Phase::Hop)', 'full_21_out')}\n"
         f"                hit({HIT}::hop_flown);\n"
         "                flown = match", 1),
        ("                        points.truncate(mark);\n", f"                        {RUN}.truncate(&mut points, mark);\n", 1),
        ("                contacts.push(Contact::new(&state, &at, &leave));\n",
         f"                {RUN}.test(leave, {HIT}::state_22_drop);\n"
         f"                {push('contact', 'Contact::new(&state, &at, &leave)', 'full_20_drop')}\n", 1),
        ("            contacts.push(Contact::new(&state, &at, &out));\n            match hop {",
         f"            {push('contact', 'Contact::new(&state, &at, &out)', 'full_20_hop')}\n            match hop {{", 1),
        ("                    points.push(GroundPoint::new(&stopped, Phase::Hop));\n",
         f"                    hit({HIT}::hop_late);\n"
         f"                    hit_if({RUN}.steps.get() == {RUN}.step_limit, {HIT}::time_with_no_steps_left);\n"
         f"                    {push('point', 'GroundPoint::new(&stopped, Phase::Hop)', 'full_21_late')}\n", 1),
        # settle, ground
        ("                points.push(GroundPoint::new(&state, phase));\n                return",
         f"                hit({HIT}::ground_time);\n"
         f"                hit_if(last_phase.is_none(), {HIT}::ground_time_no_step);\n"
         f"                hit_if({RUN}.steps.get() == {RUN}.step_limit, {HIT}::time_with_no_steps_left);\n"
         f"                {push('point', 'GroundPoint::new(&state, phase)', 'full_21_ground_time')}\n                return", 1),
        ("            let h = self.dt.min(t_end - state.time);\n",
         f"            {RUN}.due({HIT}::limit_23_ground);\n            let h = self.dt.min(t_end - state.time);\n", 1),
        ("                contact_step(&state, &at, ball, h, self.stop_speed, self.roll_threshold);\n",
         "                contact_step(&state, &at, ball, h, self.stop_speed, self.roll_threshold);\n"
         f"            {RUN}.made();\n", 1),
        ("                points.push(GroundPoint::new(&state, phase));\n                next_sample",
         f"                {push('point', 'GroundPoint::new(&state, phase)', 'full_21_ground')}\n                next_sample", 1),
        ("            let under = self.sample(next.pos);\n            let held",
         f"            {RUN}.at({HIT}::look_22_ground);\n            let under = self.sample(next.pos);\n"
         f"            hit_if(stopped && next.time > t_end, {HIT}::stop_past_t_end);\n"
         f"            hit_if(stopped && !under.holds_at_rest(), {HIT}::stop_not_held);\n"
         "            let held", 1),
        ("            state = onto_surface(&next, &under, at.normal, rolling, radius);\n",
         "            state = onto_surface(&next, &under, at.normal, rolling, radius);\n"
         f"            {RUN}.test(state, {HIT}::state_22_ground);\n", 1),
        ("                points.push(GroundPoint::new(&state, Phase::Roll));\n",
         f"                hit({HIT}::rest);\n"
         f"                {push('point', 'GroundPoint::new(&state, Phase::Roll)', 'full_21_rest')}\n", 1),
        # step: the place of its second look
        ("        let under = self.sample(next.pos);\n        (\n",
         f"        {RUN}.at({HIT}::look_22_ground);\n        let under = self.sample(next.pos);\n        (\n", 1),
    ],
}

# counts of branches only; no change of behaviour
COUNTS = {
    "ground.rs": [
        ("fn find_root(f: impl Fn(f64) -> f64, lo: (f64, f64), hi: (f64, f64), guess: f64) -> f64 {\n",
         "fn find_root(f: impl Fn(f64) -> f64, lo: (f64, f64), hi: (f64, f64), guess: f64, shut: crate::added::Hit) -> f64 {\n", 1),
        # paper 4: an evaluation is counted in find_root's own loop, as it is made
        ("        let fx = f(x);\n", "        crate::added::evaluation(shut);\n        let fx = f(x);\n", 1),
        ("        if !(lo < mid && mid < hi) {\n            break;\n",
         "        if !(lo < mid && mid < hi) {\n            hit(shut);\n            return hi;\n", 1),
        ("        if !(lo < x && x < hi) {\n            x = mid;\n        }\n    }\n    hi\n",
         f"        if !(lo < x && x < hi) {{\n            x = mid;\n        }}\n    }}\n    hit({HIT}::hop_root_200);\n    hi\n", 1),
        ("        if hi.1 <= 0.0 {\n            return Some((lo, hi));\n",
         f"        if hi.1 <= 0.0 {{\n            hit(CROSSINGS[i as usize - 1]);\n            return Some((lo, hi));\n", 1),
        ("        let frac = find_root(clearance, lo, hi, guess.clamp(lo.0, hi.0));\n",
         f"        let frac = find_root(clearance, lo, hi, guess.clamp(lo.0, hi.0), {HIT}::hop_shut_by_jump);\n", 1),
        ("    let above =\n        |tau: f64|", f"    hit({HIT}::slide_root_search);\n    let above =\n        |tau: f64|", 1),
        ("        (dt, s_full - roll_threshold),\n        guess,\n",
         f"        (dt, s_full - roll_threshold),\n        guess,\n        {HIT}::slide_shut,\n", 1),
        ("    } else {\n        dt\n    };\n", f"    }} else {{\n        hit({HIT}::slide_guess_dt);\n        dt\n    }};\n", 1),
        ("                if s.is_finite() { s.exp() } else { 1.0 }\n",
         f"                hit_if(s > 700.0, {HIT}::exp_past_700);\n                if s.is_finite() {{ s.exp() }} else {{ 1.0 }}\n", 1),
        ("    if v_dot_n >= -GRAZING * v.length() {\n", f"    if v_dot_n >= -GRAZING * v.length() {{\n        hit({HIT}::impact_grazing);\n", 1),
        ("    if v_n_eff >= 0.0 {\n", f"    if v_n_eff >= 0.0 {{\n        hit({HIT}::impact_tilted_away);\n", 1),
        ("    let j_t_vec = if slip_speed > 0.0 {\n",
         f"    hit(if surface.mu_slide * j_n < slip_speed * k / (1.0 + k) {{ {HIT}::impact_slides }} else {{ {HIT}::impact_grips }});\n"
         "    let j_t_vec = if slip_speed > 0.0 {\n", 1),
        ("                if v <= 20.0 {\n", f"                hit_if(v > 20.0, {HIT}::penner_fast);\n                if v <= 20.0 {{\n", 1),
        ("        (self.compliance * theta_c * fade).min(incidence)\n",
         f"        hit_if(self.compliance * theta_c * fade > incidence, {HIT}::angle_capped);\n"
         "        (self.compliance * theta_c * fade).min(incidence)\n", 1),
        ("        v_t_vec / v_t\n    } else {\n", f"        v_t_vec / v_t\n    }} else {{\n        hit({HIT}::no_tangent);\n", 1),
        ("    if w0 == 0.0 || w0.signum() != w1.signum() {\n",
         f"    if w0 == 0.0 || w0.signum() != w1.signum() {{\n        hit_if(w0 != 0.0, {HIT}::pivot_crosses_zero);\n", 1),
        ("    if at.normal == prev_normal && state.pos.y == at.height {\n",
         f"    if at.normal == prev_normal && state.pos.y == at.height {{\n        hit({HIT}::onto_same);\n", 1),
        ("    out.vel = state.vel - state.vel.dot(n) * n;\n    if rolling {\n",
         f"    hit(if rolling {{ {HIT}::onto_rolling }} else {{ {HIT}::onto_sliding }});\n"
         "    out.vel = state.vel - state.vel.dot(n) * n;\n    if rolling {\n", 1),
        ("            let Some(hop) = flown else {\n",
         f"            let Some(hop) = flown else {{\n                hit_if(!(v_n > 0.0 && v_n * v_n >= 2.0 * G * n.y * self.min_hop_height), {HIT}::drop_no_hop);\n", 1),
        ("                    (leave.vel, leave.spin) =\n", f"                    hit({HIT}::drop_locked);\n                    (leave.vel, leave.spin) =\n", 1),
        ("        let f_hi = if hi == h { clearance(h).min(0.0) } else { f_hi };\n",
         "        let f_hi = if hi == h { clearance(h).min(0.0) } else { f_hi };\n"
         f"        hit_if(hi == h && f_hi != end, {HIT}::hi_is_h_clipped);\n", 1),
        ("        let guess = drop_time(a.pos.y - end_height, a.vel.y).clamp(lo.0, hi);\n",
         "        let guess = drop_time(a.pos.y - end_height, a.vel.y).clamp(lo.0, hi);\n"
         f"        hit_if(guess != drop_time(a.pos.y - end_height, a.vel.y), {HIT}::guess_clamped);\n", 1),
        ("        return finish(start, t, dt);\n    }\n\n    let u0",
         f"        hit({HIT}::finish_level);\n        return finish(start, t, dt);\n    }}\n\n    let u0", 1),
        ("    if s0 <= roll_threshold {\n", f"    if s0 <= roll_threshold {{\n        hit({HIT}::finish_below_threshold);\n", 1),
        ("            return (s, 0.0, true);\n", f"            hit({HIT}::finish_tiny);\n            return (s, 0.0, true);\n", 1),
        ("            f64::INFINITY\n        };\n        let h = left",
         f"            hit({HIT}::rate_not_positive);\n            f64::INFINITY\n        }};\n        let h = left", 1),
        ("    if s0 - roll_threshold > fastest * dt {\n", f"    if s0 - roll_threshold > fastest * dt {{\n        hit({HIT}::slide_far);\n", 1),
        ("    if s_full > roll_threshold {\n", f"    if s_full > roll_threshold {{\n        hit({HIT}::slide_full);\n", 1),
        ("        if rolls {\n", f"        if rolls {{\n            hit({HIT}::rolls_in_step);\n", 1),
        ("    if stops {\n", f"    hit_if(!stops && speed <= SLIP_EPS, {HIT}::starts_downhill);\n    if stops {{\n"
         f"        hit(if speed <= SLIP_EPS {{ {HIT}::stop_from_rest }} else {{ {HIT}::stop_slow }});\n", 1),
        ("    let m = rk4::step_state(\n", f"    hit({HIT}::roll_step);\n    let m = rk4::step_state(\n", 1),
        ("const CROSSING_SUBSTEPS: u32 = 8;\n",
         "const CROSSING_SUBSTEPS: u32 = 8;\nconst CROSSINGS: [crate::added::Hit; 8] = ["
         + ", ".join(f"{HIT}::crossing_{i}" for i in range(1, 9)) + "];\n", 1),
        ("        let aero = AeroParams::from_spin_vector(start.spin);\n",
         f"        hit_if(air_density == 0.0, {HIT}::density_zero);\n        let aero = AeroParams::from_spin_vector(start.spin);\n", 1),
    ],
    "aero.rs": [
        ("        if speed < 1e-10 {\n            return DVec3",
         f"        if speed < 1e-10 {{\n            crate::added::hit({HIT}::tiny_speed);\n            return DVec3", 1),
        ("            } else {\n                DVec3::ZERO\n            }\n",
         f"            }} else {{\n                crate::added::hit({HIT}::no_lift);\n                DVec3::ZERO\n            }}\n", 1),
    ],
}

# The second settle (02, paper 13), written out around the reference's own parts: "after each hop step of length h, the spin becomes the old spin times
# exp(-(0.04 h)), before that state is tested. Each step flies with the spin it began with, and an arrival keeps that same spin."
FADING = {
    "ground.rs": [
        ("        let aero = AeroParams::from_spin_vector(start.spin);\n",
         "        let mut spin = start.spin;\n        let aero = std::cell::Cell::new(AeroParams::from_spin_vector(spin));\n", 1),
        ("                ball.acceleration(vel, &aero, air_density)\n", "                ball.acceleration(vel, &aero.get(), air_density)\n", 1),
        ("                    vel: s.vel,\n                    spin: start.spin,\n                });\n",
         "                    vel: s.vel,\n                    spin,\n                });\n", 1),
        (f"            {RUN}.made();\n            {RUN}.test(BallState {{ time: t + h, pos: b.pos, vel: b.vel, spin: start.spin }}",
         f"            {RUN}.made();\n"
         f"            let faded = if {RUN}.fading.get() {{ spin * (-(0.04 * h)).exponential() }} else {{ spin }};\n"
         f"            {RUN}.test(BallState {{ time: t + h, pos: b.pos, vel: b.vel, spin: faded }}", 1),
        ("self.hop_arrival(s, t, h, end, start.spin, |tau|", "self.hop_arrival(s, t, h, end, spin, |tau|", 2),
        ("            s = b;\n            t += h;\n",
         "            s = b;\n            t += h;\n"
         f"            if {RUN}.fading.get() {{\n                spin = faded;\n                aero.set(AeroParams::from_spin_vector(spin));\n            }}\n", 1),
        ("                    vel: s.vel,\n                    spin: start.spin,\n                };\n",
         "                    vel: s.vel,\n                    spin,\n                };\n", 1),
    ],
}

# in this order: the stand-ins rename methods that the additions' texts still show by their std names
ORDER = [IMPORTS, ADDITIONS, COUNTS, STAND_INS, FADING]

# Planted differences, one a build of the mock library: each must be found by the comparison.
PLANTS = {
    "time-eps": ("ground.rs", "const TIME_EPS: f64 = 1e-9;", "const TIME_EPS: f64 = 2e-9;"),
    "root-tol": ("ground.rs", "const ROOT_TOL: f64 = 1e-12;", "const ROOT_TOL: f64 = 2e-12;"),
    "slip-eps": ("ground.rs", "const SLIP_EPS: f64 = 1e-9;", "const SLIP_EPS: f64 = 1.1e-9;"),
    "penner-20": ("ground.rs", "if v <= 20.0 {", "if v < 20.0 {"),
    "grazing": ("ground.rs", "const GRAZING: f64 = 1e-12;", "const GRAZING: f64 = 0.0;"),
    "start-tested": ("ground.rs", "    let mut lo = (0.0, f0);\n", "    let mut lo = (0.0, f0);\n    if f0 < 0.0 {\n        return None;\n    }\n"),
    "stop-capped": ("ground.rs", "let t_stop = if a0 > 0.0 { speed / a0 } else { 0.0 };", "let t_stop = if a0 > 0.0 { (speed / a0).min(dt) } else { 0.0 };"),
    "substeps-7": ("ground.rs", "const CROSSING_SUBSTEPS: u32 = 8;\nconst", "const CROSSING_SUBSTEPS: u32 = 7;\nconst"),
    "illinois": ("ground.rs", "                f_hi *= 0.5;", "                f_hi *= 0.25;"),
    "shut-lo": ("ground.rs", "            return hi;\n", "            return lo;\n"),
    "clip-hi": ("ground.rs", "if hi == h { clearance(h).min_of(0.0) } else { f_hi }", "f_hi"),
    "unit-normal": ("ground.rs", "            normal: at.normal,\n", "            normal: at.normal.normalize(),\n"),
    "pivot-normal": ("ground.rs", "    let w_n = spin.dot(n);\n    let dw", "    let w_n = spin.dot(n_eff);\n    let dw"),
    "onto-prev": ("ground.rs", "state.spin.dot(prev_normal.normalize())", "state.spin.dot(n)"),
    "min-switch": ("ground.rs", "const MIN_SWITCH_SLIP: f64 = 1e-6;", "const MIN_SWITCH_SLIP: f64 = 2e-6;"),
    "hop-sample": ("ground.rs", "                next_sample += SAMPLE_INTERVAL;", "                next_sample = t + SAMPLE_INTERVAL;"),
    "max-impacts": ("ground.rs", "if contacts.len() + 1 >= self.max_impacts {", "if contacts.len() >= self.max_impacts {"),
    "drag-2.0": ("rk4.rs", "(k1_v + 2.0 * k2_v + 2.0 * k3_v + k4_v)", "(k1_v + 2.0 * (k2_v + k3_v) + k4_v)"),
    "step-state": ("rk4.rs", "        .add_scaled(&k2, dt / 3.0)\n        .add_scaled(&k3, dt / 3.0)\n", "        .add_scaled(&k3, dt / 3.0)\n        .add_scaled(&k2, dt / 3.0)\n"),
    "lift-1e-10": ("aero.rs", "if lift_mag > 1e-10", "if lift_mag > 1e-3"),
    "tiny-spin": ("aero.rs", "if spin_rate > 1e-10", "if spin_rate > 1e-2"),
    "contact-early": ("ground.rs", "                hit(crate::added::Hit::hop_flown);\n",
                      "                hit(crate::added::Hit::hop_flown);\n                if self.terrain.run().contact_room == contacts.len() { self.terrain.run().stop(20, crate::added::Hit::full_20_hop); }\n"),
    "limit-first": ("ground.rs", "            if t >= t_end - TIME_EPS {\n", "            self.terrain.run().due(crate::added::Hit::limit_23_hop);\n            if t >= t_end - TIME_EPS {\n"),
    "evaluation-slide": ("ground.rs", "        crate::added::evaluation(shut);\n",
                         "        if shut == crate::added::Hit::hop_shut_by_jump { crate::added::evaluation(shut); }\n"),
    "hold": ("ground.rs", "surface.mu_roll * G * n.y\n", "surface.mu_roll * G\n"),
}

# Planted in the reference and in the library alike, so that they do not differ: found by src/history.rs alone.
BROKEN = {
    "points-kept": ("ground.rs", "                        self.terrain.run().truncate(&mut points, mark);\n", ""),
    "not-placed": ("ground.rs", "        pos.y = self.sample(pos).height;\n", "        self.sample(pos);\n"),
    "impacts-early": ("ground.rs", "if contacts.len() + 1 >= self.max_impacts {", "if contacts.len() + 2 >= self.max_impacts {"),
    "not-held": ("ground.rs", "let held = stopped && under.holds_at_rest();", "let held = stopped;"),
    "stop-back": ("ground.rs", "            time: state.time + t_stop,\n", "            time: state.time - t_stop,\n"),
}
