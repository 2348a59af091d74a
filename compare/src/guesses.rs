//! How often the library's guesses are right on what a settle asks of them. No proof says that they are: a wrong constant in one costs
//! only time. The reference that logs tells the roots and the looks; the library's doors `guess_root` and `guess_look` tell the guesses.

use crate::shots::{Rng, Shot, random_shot};
use crate::speed::{CONTACTS, POINTS, shot};

unsafe extern "C" {
    safe fn guess_root(x: f64) -> u64;
    fn guess_look(sheet: *const u8, len: usize, x: f64, z: f64) -> u32;
}

/// Up to as many patches the library makes no index.
const FEW: usize = 48;

/// Looks asked of one settle: the door makes the index anew for each.
const LOOKS: usize = 2000;

/// How often a guess was asked, and how often it went wrong.
struct Share {
    what: &'static str,
    /// The greatest share that passes, in a thousand.
    most: f64,
    asked: u64,
    wrong: u64,
}

impl Share {
    fn new(what: &'static str, most: f64) -> Self {
        Self { what, most, asked: 0, wrong: 0 }
    }

    fn count(&mut self, wrong: bool) {
        self.asked += 1;
        self.wrong += u64::from(wrong);
    }

    /// A share past its bound counts as a difference.
    fn print(&self) {
        let share = 1000.0 * self.wrong as f64 / self.asked.max(1) as f64;
        println!("  {}: {} of {}, {share:.3} in a thousand (at most {})", self.what, self.wrong, self.asked, self.most);
        if self.asked == 0 || share > self.most {
            crate::different("guesses", format!("{}: {share:.3} in a thousand", self.what), &[]);
        }
    }
}

/// The six shots of `speed`, and random ones.
pub fn run() {
    let mut roots = Share::new("roots whose estimate was not sure", 1.0);
    let mut looks = Share::new("looks that tried each patch", 10.0);
    let mut others = 0u64;
    let mut r = Rng(1);
    let fixed = [0, 16, 512].into_iter().flat_map(|n| [0.001, 0.01].map(|dt| shot(n, dt)));
    let random: Vec<Shot> = (0..400).map(|_| random_shot(&mut r)).collect();
    for s in fixed.chain(random) {
        dimple_log::stand::ROOTS.take();
        let out = dimple_log::oracle::settle(&s.bytes(), CONTACTS, POINTS, true);
        for x in dimple_log::stand::ROOTS.take() {
            if !x.is_normal() || x < 0.0 {
                others += 1;
                continue;
            }
            let guess = guess_root(x);
            roots.count(guess == 0);
            if guess != 0 && guess != x.sqrt().to_bits() {
                crate::different("guess", format!("of {x:?}: {:?}", f64::from_bits(guess)), &x.to_le_bytes());
            }
        }
        if s.areas.len() > FEW {
            let sheet = s.sheet();
            for (x, z) in out.looks.iter().step_by(out.looks.len() / LOOKS + 1) {
                looks.count(unsafe { guess_look(sheet.as_ptr(), sheet.len(), *x, *z) } != 1);
            }
        }
    }
    println!("guesses, in the six shots above and 400 random ones ({others} roots of 0 and the like are not counted):");
    roots.print();
    looks.print();
}
