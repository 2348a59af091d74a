//! Nanoseconds a step and a settle of the library, the reference and the unpatched build, in one run; and the shares of guesses.rs.

use crate::shots::*;
use std::hint::black_box;
use std::time::Instant;

pub const CONTACTS: usize = 64 * 20;
pub const POINTS: usize = 4000 * 12;

/// The same shot with 0, 16 or 512 patches; the ball's way crosses the last ones listed.
pub fn shot(patches: usize, dt: f64) -> Shot {
    let mut s = bench();
    s.head[STEP_LIMIT] = 2_000_000;
    s.set(DT, dt);
    s.surfaces = vec![green(), fairway()];
    s = s.with3(VEL, [20.0, -15.0, 1.0]).with3(SPIN, [10.0, -20.0, 300.0]);
    for i in 0..patches {
        let (x, h) = if i + 8 < patches { (-2000.0 - 3.0 * i as f64, 0.0) } else { ((i + 8 - patches) as f64 * 5.0, 0.0) };
        s.areas.push(area((x, x + 5.0), (-40.0, 40.0), h, 0.0, 0.001, (i % 2) as u64));
    }
    s
}

fn best(mut work: impl FnMut()) -> f64 {
    let mut least = f64::INFINITY;
    let start = Instant::now();
    let mut runs = 0;
    while runs < 5 || start.elapsed().as_secs_f64() < 0.7 {
        let t = Instant::now();
        work();
        least = least.min(t.elapsed().as_secs_f64());
        runs += 1;
    }
    least * 1e9
}

/// ns of a root that waits for the one before it, and of one that does not: the door's, and the instruction's.
#[cfg(has_probe_root)]
fn roots() {
    unsafe extern "C" {
        safe fn probe_root(x: f64) -> f64;
    }
    let mut r = Rng(1);
    let x: Vec<f64> = (0..1024).map(|_| r.range(0.001, 400.0)).collect();
    let mut o = vec![0.0; x.len()];
    let ns = |t: f64| t / x.len() as f64;
    let chain = |f: fn(f64) -> f64| ns(best(|| drop(black_box(x.iter().fold(0.0, |a, v| f(v + a * 1e-300))))));
    let mut free = |f: fn(f64) -> f64| {
        ns(best(|| {
            x.iter().zip(&mut o).for_each(|(v, o)| *o = f(*v));
            black_box(&mut o);
        }))
    };
    // one call at a time, as a settle makes them: a vector of roots is not what is asked
    let instruction: fn(f64) -> f64 = |v| black_box(v).sqrt();
    println!("root, ns, of numbers from 0.001 to 400: library, instruction");
    println!("  each waits for the one before: {:5.1} {:5.1}   (with a product and a sum)", chain(|v| probe_root(v)), chain(|v| v.sqrt()));
    println!("  none waits:                    {:5.1} {:5.1}", free(|v| probe_root(v)), free(instruction));
}

pub fn run() {
    println!("speed: best of many runs of one settle, 64 contacts and 4000 points lent, ns a step (steps)");
    for patches in [0, 16, 512] {
        for dt in [0.001, 0.01] {
            let bytes = shot(patches, dt).bytes();
            let out = dimple_ref::oracle::settle(&bytes, CONTACTS, POINTS, false);
            let steps = out.steps as f64;
            let (mut c, mut p, mut r) = (vec![0.0; CONTACTS], vec![0.0; POINTS], vec![0.0; 20]);
            let lib = best(|| {
                crate::lib_settle(&bytes, &mut c, &mut p, &mut r);
            });
            let reference = best(|| {
                dimple_ref::oracle::settle_door(&bytes, &mut c, &mut p, &mut r);
            });
            let unpatched = best(|| {
                dimple_std::oracle::settle_door(&bytes, &mut c, &mut p, &mut r);
            });
            println!(
                "  {patches:4} patches, dt {dt}: library {:8.1}  reference {:8.1}  unpatched {:8.1}   ({} steps, answer {}, {} contacts)",
                lib / steps,
                reference / steps,
                unpatched / steps,
                out.steps,
                out.answer,
                out.contacts.len()
            );
        }
    }
    #[cfg(has_probe_root)]
    roots();
    #[cfg(all(has_guess_root, has_guess_look))]
    crate::guesses::run();
    #[cfg(not(all(has_guess_root, has_guess_look)))]
    println!("guesses: the library has no doors for them");
    println!("leaves: `compare leaves --share 1` prints ns a call of both sides");
}
