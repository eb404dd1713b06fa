//! RFC 4493, section 4: messages of 0, 16, 40 and 64 bytes, given at once and in parts.

use aes::Aes128;
use cmac::{Cmac, Mac};

const KEY: u128 = 0x2b7e151628aed2a6abf7158809cf4f3c;
const MESSAGE: [u128; 4] = [
    0x6bc1bee22e409f96e93d7e117393172a,
    0xae2d8a571e03ac9c9eb76fac45af8e51,
    0x30c81c46a35ce411e5fbc1191a0a52ef,
    0xf69f2445df4f9b17ad2b417be66c3710,
];
const VECTORS: [(usize, u128); 4] = [
    (0, 0xbb1d6929e95937287fa37d129b756746),
    (16, 0x070a16b46b4d4144f79bdd9dd04a287c),
    (40, 0xdfa66747de9ae63030ca32611497c827),
    (64, 0x51f0bebf7e3b9d92fc49741779363cfe),
];

#[test]
fn the_vectors() {
    let message: Vec<u8> = MESSAGE.iter().flat_map(|word| word.to_be_bytes()).collect();
    for portable_only in [true, false] {
        aes::set_portable_only(portable_only);
        for (length, expected) in VECTORS {
            for part in [1, 7, 16, 64] {
                let mut mac = Cmac::<Aes128>::new(&KEY.to_be_bytes());
                for data in message[..length].chunks(part) {
                    mac.update(data);
                }
                assert_eq!(u128::from_be_bytes(mac.finalize().into_bytes()), expected);
            }
        }
    }
}
