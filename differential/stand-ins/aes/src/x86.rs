//! AES-128 with the AES instructions of x86-64.

use std::arch::x86_64::*;

pub fn is_found() -> bool {
    is_x86_feature_detected!("aes") && is_x86_feature_detected!("sse2")
}

/// Round keys; one is made only where the instructions were found.
#[derive(Clone)]
pub struct Schedule([__m128i; 11]);

impl Schedule {
    #[inline]
    pub fn new(key: &[u8; 16]) -> Self {
        debug_assert!(is_found());
        // SAFETY: the instructions were found
        unsafe { expand(key) }
    }

    #[inline]
    pub fn encrypt_block(&self, block: [u8; 16]) -> [u8; 16] {
        // SAFETY: a schedule is made only where the instructions were found
        unsafe { encrypt(&self.0, block) }
    }
}

#[target_feature(enable = "aes,sse2")]
unsafe fn load(bytes: &[u8; 16]) -> __m128i {
    // SAFETY: sixteen bytes, no alignment asked
    unsafe { _mm_loadu_si128(bytes.as_ptr().cast()) }
}

#[target_feature(enable = "aes,sse2")]
unsafe fn expand(key: &[u8; 16]) -> Schedule {
    // SAFETY: as for this function
    let first = unsafe { load(key) };
    let mut keys = [first; 11];
    keys[1] = next_key(keys[0], _mm_aeskeygenassist_si128(keys[0], 0x01));
    keys[2] = next_key(keys[1], _mm_aeskeygenassist_si128(keys[1], 0x02));
    keys[3] = next_key(keys[2], _mm_aeskeygenassist_si128(keys[2], 0x04));
    keys[4] = next_key(keys[3], _mm_aeskeygenassist_si128(keys[3], 0x08));
    keys[5] = next_key(keys[4], _mm_aeskeygenassist_si128(keys[4], 0x10));
    keys[6] = next_key(keys[5], _mm_aeskeygenassist_si128(keys[5], 0x20));
    keys[7] = next_key(keys[6], _mm_aeskeygenassist_si128(keys[6], 0x40));
    keys[8] = next_key(keys[7], _mm_aeskeygenassist_si128(keys[7], 0x80));
    keys[9] = next_key(keys[8], _mm_aeskeygenassist_si128(keys[8], 0x1b));
    keys[10] = next_key(keys[9], _mm_aeskeygenassist_si128(keys[9], 0x36));
    Schedule(keys)
}

/// Each word of the key xor all words before it and the word that the instruction prepared.
#[target_feature(enable = "aes,sse2")]
fn next_key(key: __m128i, assist: __m128i) -> __m128i {
    let mut sums = key;
    sums = _mm_xor_si128(sums, _mm_slli_si128(sums, 4));
    sums = _mm_xor_si128(sums, _mm_slli_si128(sums, 8));
    _mm_xor_si128(sums, _mm_shuffle_epi32(assist, 0xff))
}

#[target_feature(enable = "aes,sse2")]
unsafe fn encrypt(keys: &[__m128i; 11], block: [u8; 16]) -> [u8; 16] {
    // SAFETY: as for this function
    let mut state = _mm_xor_si128(unsafe { load(&block) }, keys[0]);
    for key in &keys[1..10] {
        state = _mm_aesenc_si128(state, *key);
    }
    state = _mm_aesenclast_si128(state, keys[10]);
    let mut out = [0; 16];
    // SAFETY: sixteen bytes, no alignment asked
    unsafe { _mm_storeu_si128(out.as_mut_ptr().cast(), state) };
    out
}
