//! Inputs on which the Rust alone (std's functions, no input tests, no test 22) does something unexpected,
//! and what document 01's settle answers for each. For docs/DIFFERENCES.md.

use crate::shots::*;
use dimple_ref::oracle as reference;
use dimple_std::added::Run;
use dimple_std::ground::leaf::state_of;
use dimple_std::oracle::{Area, Course, Outcome, read_sheet, settle_untested};

/// The Rust alone, ended after `steps` steps.
fn alone(s: &Shot, steps: u64) -> Outcome {
    let f: [f64; 30] = std::array::from_fn(|i| s.get(i));
    let sheet = s.sheet();
    let (surfaces, areas): (_, Vec<Area>) = read_sheet(&sheet).expect("an accepted sheet");
    let mut run = Run::new(state_of(&f[20..]), steps, usize::MAX, usize::MAX, true);
    run.tested = false;
    settle_untested(&f, s.head[MAX_IMPACTS], Course { surfaces, areas, run })
}

fn show(what: &str, s: &Shot) {
    let a = alone(s, 20_000);
    let b = reference::settle(&s.bytes(), 1000 * 20, 30_000 * 12, true);
    let end = match (a.answer, a.termination) {
        (23, _) => "does not end in 20,000 steps",
        (_, 1) => "rest",
        (_, 2) => "time",
        _ => "impacts",
    };
    println!("{what}");
    println!(
        "  the Rust alone: {end}, contacts {} points {} steps {} looks {}",
        a.contacts.len(),
        a.points.len(),
        a.steps,
        a.looks.len()
    );
    println!("    final time {:?} pos {:?} vel {:?} spin {:?}", a.rest[0], &a.rest[1..4], &a.rest[4..7], &a.rest[7..]);
    println!(
        "  document 01's settle: answer {} termination {} contacts {} points {} steps {} looks {}",
        b.answer,
        b.termination,
        b.contacts.len(),
        b.points.len(),
        b.steps,
        b.looks.len()
    );
    println!("    final time {:?} pos {:?} vel {:?} spin {:?}", b.rest[0], &b.rest[1..4], &b.rest[4..7], &b.rest[7..]);
}

fn rolling(s: Shot, v: f64) -> Shot {
    let radius = s.get(BALL + 1) / 2.0;
    s.with3(VEL, [v, 0.0, 0.0]).with3(SPIN, [0.0, 0.0, -v / radius])
}

pub fn run() {
    let s = bench().with_word(STEP_LIMIT, 2_000_000);
    let down = s.clone().with(VEL + 1, -10.0);
    show("S, vel (0, -10, 0), mass 0", &down.clone().with(BALL, 0.0));
    show("S, vel (0, -10, 0), diameter 0", &down.clone().with(BALL + 1, 0.0));
    show("S, vel (0, -10, 0), dt 0", &down.clone().with(DT, 0.0));
    show("S, vel (0, -10, 0), dt NaN: one step as long as max_time", &down.clone().with(DT, f64::NAN));
    show("S, vel (0, -10, 0), max_time NaN", &down.clone().with(MAX_TIME, f64::NAN));
    show("S, vel (1, 0, 0), max_time infinite, a slope of 0.1 that does not hold the ball", &{
        let mut t = s.clone().with(VEL, 1.0).with(MAX_TIME, f64::INFINITY);
        t.areas.push(area((-1e5, 1e5), (-1e5, 1e5), 0.0, -0.1, 0.0, 0));
        t
    });
    show("S, vel (0, -10, 0), pos.y -0.1: the hop starts below the ground, 200 evaluations", &down.clone().with(POS + 1, -0.1));
    show(
        "S, vel (0, -10, 0), pos.y 50: the first impact is in the air",
        &down.clone().with(POS + 1, 50.0).with_word(MAX_IMPACTS, 1),
    );
    show("S, a slope of 0.055 = mu_roll, rolling down it at stop_speed: a stop of some 1,600 s, past max_time 120", &{
        let mut t = s.clone();
        t.areas.push(area((-1e5, 1e5), (-1e5, 1e5), 0.0, -0.055, 0.0, 0));
        let v = 0.00998;
        t.with3(VEL, [v, -0.055 * v, 0.0]).with3(SPIN, [0.0, 0.0, -v * (1.0f64 + 0.055 * 0.055).sqrt() / (0.04267 / 2.0)])
    });
    let mut t = s.clone();
    t.surfaces = vec![surface(0, 0.0, 0.4, 0.0, 0, 1.0, 0.0, 0.0)];
    show(
        "mu_roll 0, rolling at 0.01 = stop_speed: stops at once (deceleration 0 gives stopping time 0)",
        &rolling(t.clone(), 0.01),
    );
    show("mu_roll 0, rolling just above stop_speed: rolls to max_time", &rolling(t.clone(), up(0.01)).with(MAX_TIME, 5.0));
    t.surfaces = vec![surface(0, 0.0, 0.4, 1e-16, 0, 1.0, 0.0, 0.0)];
    show("mu_roll 1e-16, rolling at 1e-8: a stop of 1.4e7 s, long past max_time", &rolling(t.clone(), 1e-8));
    t.surfaces = vec![surface(0, 0.0, 0.4, 0.0, 2, 0.01, 0.0, 0.0)];
    show("mu_roll 0, exponential law, v_ref 0.01, rolling at 8: 0 times infinity", &rolling(t.clone(), 8.0).with(MAX_TIME, 0.01));
    t.surfaces = vec![surface(0, 0.0, 0.4, 0.055, 2, 0.01, 0.0, 0.0)];
    show("exponential law, v_ref 0.01, rolling at 8: infinite deceleration, stops in no time", &rolling(t.clone(), 8.0));
    show("exponential law, v_ref 0.01, rolling at 7.05: past 700, not past std's 709.78", &rolling(t.clone(), 7.05));
    show("light, large ball in dense air: the stepper's speed grows past every bound", &{
        down.clone()
            .with(BALL, 0.001)
            .with(BALL + 1, 0.5)
            .with(DENSITY, 10.0)
            .with(DT, 0.01)
            .with(VEL + 1, -100.0)
            .with(MAX_TIME, 1.0)
    });
    show("a step up of 1 m in the way of a roll: the ball is lifted onto it", &{
        let mut t = rolling(s.clone(), 2.0);
        t.areas.push(area((1.0, 50.0), (-1.0, 1.0), 1.0, 0.0, 0.0, 0));
        t
    });
    show("S at (-0.5, 0, -0.5) on a level patch of h0 -0, whose height there is -0: at rest with y +0", &{
        let mut t = s.clone().with3(POS, [-0.5, 0.0, -0.5]);
        t.areas.push(area((-1.0, 1.0), (-1.0, 1.0), -0.0, 0.0, 0.0, 0));
        t
    });
    show("a roll uphill without friction, at velocity 0 by rounding on ground that holds: at rest with -0 in z", &{
        let mut t = s.clone().with(DT, 0.002).with(STOP_SPEED, 0.0).with(POS + 1, 5.0);
        t.surfaces = [0.0, 10.0].map(|mu_roll| surface(0, 0.0, 0.4, mu_roll, 0, 1.0, 0.0, 0.0)).to_vec();
        for (x, number) in [((-1.0, 3e-6), 0), ((3e-6, 1.0), 1)] {
            t.areas.push(area(x, (-1.0, 1.0), 5.0, 1.1723883361783551, 5e-324, number));
        }
        t.with3(VEL, [0.0069170827781010556, 0.008109507169425847, -0.0]).with3(SPIN, [0.0, 0.0, -0.49959249034963543])
    });
}
