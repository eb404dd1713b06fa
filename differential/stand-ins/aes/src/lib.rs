//! Stands for the crate `aes`: AES-128, encryption of one block at a time (FIPS 197).
//!
//! Assumes only FIPS 197, against whose vectors the test holds it. Like the original it takes the processor's AES
//! instructions where they are found when it runs, and otherwise portable code. The portable code here looks up
//! tables; the original's is bitsliced.

mod portable;
#[cfg(target_arch = "x86_64")]
mod x86;

use std::sync::atomic::{AtomicBool, Ordering};

/// What `cmac` needs of a block cipher.
pub trait BlockCipher {
    fn new(key: &[u8; 16]) -> Self;
    fn encrypt_block(&self, block: [u8; 16]) -> [u8; 16];
}

static PORTABLE_ONLY: AtomicBool = AtomicBool::new(false);

/// From now on new ciphers use portable code only, or the AES instructions again.
pub fn set_portable_only(portable_only: bool) {
    PORTABLE_ONLY.store(portable_only, Ordering::Relaxed);
}

/// Whether a new cipher would use AES instructions.
pub fn has_instructions() -> bool {
    #[cfg(target_arch = "x86_64")]
    let found = x86::is_found();
    #[cfg(not(target_arch = "x86_64"))]
    let found = false;
    found && !PORTABLE_ONLY.load(Ordering::Relaxed)
}

#[derive(Clone)]
pub struct Aes128(Schedule);

#[derive(Clone)]
enum Schedule {
    Portable(portable::Schedule),
    #[cfg(target_arch = "x86_64")]
    Instructions(x86::Schedule),
}

impl BlockCipher for Aes128 {
    #[inline]
    fn new(key: &[u8; 16]) -> Self {
        #[cfg(target_arch = "x86_64")]
        if has_instructions() {
            return Aes128(Schedule::Instructions(x86::Schedule::new(key)));
        }
        Aes128(Schedule::Portable(portable::Schedule::new(key)))
    }

    #[inline]
    fn encrypt_block(&self, block: [u8; 16]) -> [u8; 16] {
        match &self.0 {
            Schedule::Portable(schedule) => schedule.encrypt_block(block),
            #[cfg(target_arch = "x86_64")]
            Schedule::Instructions(schedule) => schedule.encrypt_block(block),
        }
    }
}
