//! FIPS 197, appendix C.1 and appendix B, and the AES-128 block of RFC 4493, in both kinds of code.

use aes::{Aes128, BlockCipher, has_instructions, set_portable_only};

fn bytes(hex: &str) -> [u8; 16] {
    u128::from_str_radix(hex, 16).unwrap().to_be_bytes()
}

const VECTORS: [(&str, &str, &str); 3] = [
    (
        "000102030405060708090a0b0c0d0e0f",
        "00112233445566778899aabbccddeeff",
        "69c4e0d86a7b0430d8cdb78070b4c55a",
    ),
    (
        "2b7e151628aed2a6abf7158809cf4f3c",
        "3243f6a8885a308d313198a2e0370734",
        "3925841d02dc09fbdc118597196a0b32",
    ),
    (
        "2b7e151628aed2a6abf7158809cf4f3c",
        "00000000000000000000000000000000",
        "7df76b0c1ab899b33e42f047b91b546f",
    ),
];

#[test]
fn both_kinds_give_the_vectors_and_agree() {
    let mut blocks = Vec::new();
    for portable_only in [true, false] {
        set_portable_only(portable_only);
        println!("AES instructions: {}", has_instructions());
        for (key, block, expected) in VECTORS {
            assert_eq!(
                Aes128::new(&bytes(key)).encrypt_block(bytes(block)),
                bytes(expected)
            );
        }
        let mut block = [0u8; 16];
        for _ in 0..10_000 {
            let key = block.map(|byte| byte.rotate_left(3) ^ 0x5a);
            block = Aes128::new(&key).encrypt_block(block);
        }
        blocks.push(block);
    }
    assert_eq!(blocks[0], blocks[1]);
}
