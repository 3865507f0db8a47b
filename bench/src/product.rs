//! The product behind its C functions.

use crate::planner::{Answer, Planner};

#[link(name = "stellarsnare", kind = "static")]
extern "C" {
    fn stellarsnare_plan(
        text: *const u8,
        bytes: usize,
        words: *mut u64,
        count: usize,
        refusal: *mut u64,
    ) -> bool;
    fn stellarsnare_start(
        words: *const u64,
        count: usize,
        mode: u64,
        machine: *mut u64,
        refusal: *mut u64,
    ) -> bool;
    fn stellarsnare_request(
        words: *const u64,
        count: usize,
        machine: *mut u64,
        mode: u64,
        clock: u64,
        delay: *mut u64,
        refusal: *mut u64,
    ) -> bool;
    fn stellarsnare_print(
        words: *const u64,
        count: usize,
        out: *mut u8,
        bytes: usize,
        length: *mut usize,
        refusal: *mut u64,
    ) -> bool;
}

/// What stands in the refusal before a call, so that a number which is not written shows.
const UNWRITTEN: [u64; 5] = [u64::MAX; 5];

/// The product, linked from its static library.
pub struct Product;

impl Planner for Product {
    fn plan(&self, text: &[u8], words: &mut [u64]) -> Answer {
        let mut refusal = UNWRITTEN;
        // SAFETY: pointers and lengths are those of slices that live through the call.
        let accepted = unsafe {
            stellarsnare_plan(
                text.as_ptr(),
                text.len(),
                words.as_mut_ptr(),
                words.len(),
                refusal.as_mut_ptr(),
            )
        };
        Answer { accepted, refusal }
    }

    fn start(&self, words: &[u64], mode: u64, machine: &mut [u64; 3]) -> Answer {
        let mut refusal = UNWRITTEN;
        // SAFETY: as for `plan`; the machine has three numbers.
        let accepted = unsafe {
            stellarsnare_start(
                words.as_ptr(),
                words.len(),
                mode,
                machine.as_mut_ptr(),
                refusal.as_mut_ptr(),
            )
        };
        Answer { accepted, refusal }
    }

    fn request(
        &self,
        words: &[u64],
        machine: &mut [u64; 3],
        mode: u64,
        clock: u64,
        delay: &mut u64,
    ) -> Answer {
        let mut refusal = UNWRITTEN;
        // SAFETY: as for `start`; the delay is one number.
        let accepted = unsafe {
            stellarsnare_request(
                words.as_ptr(),
                words.len(),
                machine.as_mut_ptr(),
                mode,
                clock,
                delay,
                refusal.as_mut_ptr(),
            )
        };
        Answer { accepted, refusal }
    }

    fn print(&self, words: &[u64], out: &mut [u8], length: &mut usize) -> Answer {
        let mut refusal = UNWRITTEN;
        // SAFETY: as for `plan`; the length is one number.
        let accepted = unsafe {
            stellarsnare_print(
                words.as_ptr(),
                words.len(),
                out.as_mut_ptr(),
                out.len(),
                length,
                refusal.as_mut_ptr(),
            )
        };
        Answer { accepted, refusal }
    }
}
