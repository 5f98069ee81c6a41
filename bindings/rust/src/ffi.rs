//! The functions of `include/stallhitch.h`, as they are linked.
//!
//! They answer on every input, keep no state and touch nothing but what they are lent, so those of posits and words are safe to
//! call. The desk's four take a pointer and a length: the caller has to see to it that so many elements lie there, that none of
//! the pointers is null, and that what is written is lent to nothing else.

unsafe extern "C" {
    pub safe fn stallhitch_p32e2_neg(a: u32) -> u32;
    pub safe fn stallhitch_p32e2_add(a: u32, b: u32) -> u32;
    pub safe fn stallhitch_p32e2_sub(a: u32, b: u32) -> u32;
    pub safe fn stallhitch_p32e2_mul(a: u32, b: u32) -> u32;
    pub safe fn stallhitch_p32e2_div(a: u32, b: u32) -> u32;
    pub safe fn stallhitch_p32e2_recip(a: u32) -> u32;
    pub safe fn stallhitch_p32e2_sqrt(a: u32) -> u32;
    pub safe fn stallhitch_p32e2_mul_add(a: u32, b: u32, c: u32) -> u32;
    pub safe fn stallhitch_p32e2_mul_sub(a: u32, b: u32, c: u32) -> u32;
    pub safe fn stallhitch_p32e2_sub_product(c: u32, a: u32, b: u32) -> u32;

    pub safe fn stallhitch_q32e2_clear(q: &mut [u64; 8]);
    pub safe fn stallhitch_q32e2_add_product(q: &mut [u64; 8], a: u32, b: u32);
    pub safe fn stallhitch_q32e2_sub_product(q: &mut [u64; 8], a: u32, b: u32);
    pub safe fn stallhitch_q32e2_add_posit(q: &mut [u64; 8], a: u32);
    pub safe fn stallhitch_q32e2_sub_posit(q: &mut [u64; 8], a: u32);
    pub safe fn stallhitch_q32e2_neg(q: &mut [u64; 8]);
    pub safe fn stallhitch_q32e2_to_posit(q: &[u64; 8]) -> u32;
    pub safe fn stallhitch_q32e2_is_zero(q: &[u64; 8]) -> bool;
    pub safe fn stallhitch_q32e2_is_nar(q: &[u64; 8]) -> bool;
    pub safe fn stallhitch_q32e2_qAddQ(q: &mut [u64; 8], p: &[u64; 8]);
    pub safe fn stallhitch_q32e2_qSubQ(q: &mut [u64; 8], p: &[u64; 8]);
    pub safe fn stallhitch_q32e2_qAbs(q: &mut [u64; 8]);

    pub fn stallhitch_write_image(q: &[u64; 8], buffer: *mut u8, length: usize) -> u32;
    pub fn stallhitch_read_image(q: &mut [u64; 8], bytes: *const u8, length: usize) -> u32;
    pub fn stallhitch_add_batch(
        q: &mut [u64; 8],
        a: *const u32,
        a_length: usize,
        b: *const u32,
        b_length: usize,
    ) -> u32;
    pub fn stallhitch_check_claim(
        a: *const u32,
        a_length: usize,
        b: *const u32,
        b_length: usize,
        claim: *const u8,
        claim_length: usize,
    ) -> u32;
}
