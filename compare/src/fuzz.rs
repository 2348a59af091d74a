//! One input from standard input through the library and the reference; aborts where they differ. For a fuzzer (README.md).

use dimple_ref::oracle;
use std::io::Read;

unsafe extern "C" {
    fn dimple_settle(
        input: *const u8,
        input_len: usize,
        contacts: *mut f64,
        contacts_len: usize,
        points: *mut f64,
        points_len: usize,
        result: *mut f64,
        result_len: usize,
    ) -> u32;
}

/// An accepted step_limit above this is cut to it, so that a run stays short.
const MOST: u64 = 3000;

fn bits(l: &[f64]) -> Vec<u64> {
    l.iter().map(|x| x.to_bits()).collect()
}

fn main() {
    let mut input = Vec::new();
    std::io::stdin().take(34_049).read_to_end(&mut input).unwrap();
    if let Some(field) = input.get_mut(48..56) {
        let limit = u64::from_le_bytes(field.try_into().unwrap());
        if limit > MOST && limit <= 2_000_000 {
            field.copy_from_slice(&MOST.to_le_bytes());
        }
    }
    let lent = || (vec![1.0; 64 * 20], vec![1.0; 640 * 12], vec![1.0; 20]);
    let (mut c, mut p, mut r) = lent();
    let (mut d, mut q, mut s) = lent();
    let a = unsafe {
        dimple_settle(input.as_ptr(), input.len(), c.as_mut_ptr(), c.len(), p.as_mut_ptr(), p.len(), r.as_mut_ptr(), r.len())
    };
    let b = oracle::settle_door(&input, &mut d, &mut q, &mut s);
    if a != b || bits(&c) != bits(&d) || bits(&p) != bits(&q) || bits(&r) != bits(&s) {
        std::process::abort();
    }
}
