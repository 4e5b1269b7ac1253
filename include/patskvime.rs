//! The library for Rust: safe functions over those of patskvime.h, which has their contracts and the codes. Slices meet all
//! that it asks of a caller. Take this file in by `#[path = ".."] mod patskvime;` and link libpatskvime.a.

#![allow(dead_code)]

/// Words to lend.
pub const NETWORK: usize = 1412;
pub const STACK: usize = 257;
pub const PAIR: usize = 258;
pub const VALUE: usize = 2;
pub const VALUES: usize = 4;
pub const SCRATCH: usize = 10240;

#[link(name = "patskvime", kind = "static")]
extern "C" {
    fn patskvime_reduce(
        network: *const i32,
        network_length: usize,
        out: *mut i32,
        out_length: usize,
        stack: *mut i32,
        stack_length: usize,
        scratch: *mut i32,
        scratch_length: usize,
    ) -> usize;
    fn patskvime_test(
        network: *const i32,
        network_length: usize,
        pair: *const i32,
        pair_length: usize,
        values: *mut i32,
        values_length: usize,
    ) -> usize;
    fn patskvime_restore(
        network: *const i32,
        network_length: usize,
        stack: *const i32,
        stack_length: usize,
        pair: *const i32,
        pair_length: usize,
        out: *mut i32,
        out_length: usize,
        values: *mut i32,
        values_length: usize,
        scratch: *mut i32,
        scratch_length: usize,
    ) -> usize;
}

pub fn reduce(network: &[i32], out: &mut [i32], stack: &mut [i32], scratch: &mut [i32]) -> usize {
    unsafe {
        patskvime_reduce(
            network.as_ptr(),
            network.len(),
            out.as_mut_ptr(),
            out.len(),
            stack.as_mut_ptr(),
            stack.len(),
            scratch.as_mut_ptr(),
            scratch.len(),
        )
    }
}

pub fn test(network: &[i32], pair: &[i32], values: &mut [i32]) -> usize {
    unsafe {
        patskvime_test(network.as_ptr(), network.len(), pair.as_ptr(), pair.len(), values.as_mut_ptr(), values.len())
    }
}

pub fn restore(
    network: &[i32],
    stack: &[i32],
    pair: &[i32],
    out: &mut [i32],
    values: &mut [i32],
    scratch: &mut [i32],
) -> usize {
    unsafe {
        patskvime_restore(
            network.as_ptr(),
            network.len(),
            stack.as_ptr(),
            stack.len(),
            pair.as_ptr(),
            pair.len(),
            out.as_mut_ptr(),
            out.len(),
            values.as_mut_ptr(),
            values.len(),
            scratch.as_mut_ptr(),
            scratch.len(),
        )
    }
}
