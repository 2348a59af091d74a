//! Document 01's stand-ins for the std methods of f64. With `--cfg unpatched` each is std's own.

pub trait Stand {
    fn root(self) -> f64;
    fn hypot_of(self, b: f64) -> f64;
    fn cosine(self) -> f64;
    fn sine(self) -> f64;
    fn arctangent(self, x: f64) -> f64;
    fn exponential(self) -> f64;
    fn min_of(self, b: f64) -> f64;
    fn max_of(self, b: f64) -> f64;
}

// The numbers whose roots were taken, in a build with `--cfg logged`.
#[cfg(logged)]
thread_local! {
    pub static ROOTS: std::cell::RefCell<Vec<f64>> = const { std::cell::RefCell::new(Vec::new()) };
}

#[cfg(unpatched)]
impl Stand for f64 {
    fn root(self) -> f64 {
        self.sqrt()
    }
    fn hypot_of(self, b: f64) -> f64 {
        self.hypot(b)
    }
    fn cosine(self) -> f64 {
        self.cos()
    }
    fn sine(self) -> f64 {
        self.sin()
    }
    fn arctangent(self, x: f64) -> f64 {
        self.atan2(x)
    }
    fn exponential(self) -> f64 {
        self.exp()
    }
    fn min_of(self, b: f64) -> f64 {
        self.min(b)
    }
    fn max_of(self, b: f64) -> f64 {
        self.max(b)
    }
}

#[cfg(not(unpatched))]
impl Stand for f64 {
    /// IEEE 754 squareRoot, nearest with ties to even.
    fn root(self) -> f64 {
        #[cfg(logged)]
        ROOTS.with_borrow_mut(|r| r.push(self));
        self.sqrt()
    }

    fn hypot_of(self, b: f64) -> f64 {
        (self * self + b * b).root()
    }

    fn cosine(self) -> f64 {
        let s = self * self;
        let mut c = 1.0;
        for k in (1..=10).rev() {
            c = 1.0 - (s / f64::from((2 * k - 1) * (2 * k))) * c;
        }
        c
    }

    fn sine(self) -> f64 {
        let s = self * self;
        let mut c = 1.0;
        for k in (1..=10).rev() {
            c = 1.0 - (s / f64::from((2 * k) * (2 * k + 1))) * c;
        }
        self * c
    }

    /// `y.arctangent(x)`.
    fn arctangent(self, x: f64) -> f64 {
        if self <= x { small_arctangent(self / x) } else { 1.5707963267948966 - small_arctangent(x / self) }
    }

    fn exponential(self) -> f64 {
        let x = self;
        if x.is_nan() {
            return x;
        }
        if x > 700.0 {
            return f64::INFINITY;
        }
        if x < -700.0 {
            return 0.0;
        }
        let n = (x * 1.4426950408889634 + 6755399441055744.0) - 6755399441055744.0;
        let r = (x - n * 0.693147180369123816490) - n * 1.90821492927058770002e-10;
        let mut p = 1.0;
        for k in (1..=14).rev() {
            p = 1.0 + (r / f64::from(k)) * p;
        }
        p * f64::from_bits(((n as i64 + 1023) as u64) << 52)
    }

    fn min_of(self, b: f64) -> f64 {
        if self.is_nan() || b < self { b } else { self }
    }

    fn max_of(self, b: f64) -> f64 {
        if self.is_nan() || b > self { b } else { self }
    }
}

#[cfg(not(unpatched))]
fn small_arctangent(q: f64) -> f64 {
    let mut q = q;
    for _ in 0..2 {
        q = q / (1.0 + (1.0 + q * q).root());
    }
    let z = q * q;
    let mut s = 1.0 / 25.0;
    for m in (0..=11).rev() {
        s = 1.0 / f64::from(2 * m + 1) - z * s;
    }
    4.0 * (q * s)
}
