//! Stands for the crate `cmac`: AES-CMAC (RFC 4493).
//!
//! Assumes only RFC 4493, against whose vectors the test holds it. Byte arrays stand for the original's array types;
//! the conversions that `mac.rs` writes are then to the same type.

use aes::BlockCipher;

pub trait Mac {
    fn new(key: &[u8; 16]) -> Self;
    fn update(&mut self, data: &[u8]);
    fn finalize(self) -> CtOutput;
}

/// The whole MAC.
pub struct CtOutput([u8; 16]);

impl CtOutput {
    #[inline]
    pub fn into_bytes(self) -> [u8; 16] {
        self.0
    }
}

pub struct Cmac<Cipher> {
    cipher: Cipher,
    chained: [u8; 16],
    /// The block not yet chained, since it may be the last.
    pending: [u8; 16],
    filled: usize,
}

impl<Cipher: BlockCipher> Mac for Cmac<Cipher> {
    #[inline]
    fn new(key: &[u8; 16]) -> Self {
        Cmac {
            cipher: Cipher::new(key),
            chained: [0; 16],
            pending: [0; 16],
            filled: 0,
        }
    }

    #[inline]
    fn update(&mut self, mut data: &[u8]) {
        while !data.is_empty() {
            if self.filled == 16 {
                self.chained = self.cipher.encrypt_block(xor(self.chained, self.pending));
                self.filled = 0;
            }
            let (head, rest) = data.split_at(data.len().min(16 - self.filled));
            self.pending[self.filled..self.filled + head.len()].copy_from_slice(head);
            self.filled += head.len();
            data = rest;
        }
    }

    #[inline]
    fn finalize(mut self) -> CtOutput {
        let mut subkey = double(self.cipher.encrypt_block([0; 16]));
        if self.filled < 16 {
            subkey = double(subkey);
            self.pending[self.filled] = 0x80;
            self.pending[self.filled + 1..].fill(0);
        }
        let last = xor(self.pending, subkey);
        CtOutput(self.cipher.encrypt_block(xor(self.chained, last)))
    }
}

#[inline]
fn xor(a: [u8; 16], b: [u8; 16]) -> [u8; 16] {
    (u128::from_ne_bytes(a) ^ u128::from_ne_bytes(b)).to_ne_bytes()
}

/// Doubling in GF(2^128): a shift, and 0x87 for the bit that falls out.
#[inline]
fn double(block: [u8; 16]) -> [u8; 16] {
    let number = u128::from_be_bytes(block);
    ((number << 1) ^ (0x87 * (number >> 127))).to_be_bytes()
}
