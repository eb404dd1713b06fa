//! AES-128 on words, with one table that joins SubBytes and MixColumns.

/// Multiplication by x in GF(2^8).
const fn xtime(byte: u8) -> u8 {
    (byte << 1) ^ (0x1b * (byte >> 7))
}

/// The S-box, by FIPS 197's rule: the inverse in the field, then the affine map.
const SBOX: [u8; 256] = {
    let mut sbox = [0x63; 256];
    // `power` walks through the powers of 3, which are all nonzero bytes, `inverse` through their inverses
    let (mut power, mut inverse) = (1u8, 1u8);
    loop {
        power ^= xtime(power);
        // division by 3
        inverse ^= inverse << 1;
        inverse ^= inverse << 2;
        inverse ^= inverse << 4;
        inverse ^= 0x09 * (inverse >> 7);
        let turned = inverse.rotate_left(1) ^ inverse.rotate_left(2);
        let turned = turned ^ inverse.rotate_left(3) ^ inverse.rotate_left(4);
        sbox[power as usize] = 0x63 ^ inverse ^ turned;
        if power == 1 {
            break sbox;
        }
    }
};

/// For a byte of row 0, what it adds to its column: its S-box value times 2, 1, 1, 3.
const ROW0: [u32; 256] = {
    let mut row = [0; 256];
    let mut byte = 0;
    while byte < 256 {
        let s = SBOX[byte];
        row[byte] = u32::from_be_bytes([xtime(s), s, s, s ^ xtime(s)]);
        byte += 1;
    }
    row
};

fn sub_word(word: u32) -> u32 {
    u32::from_be_bytes(word.to_be_bytes().map(|byte| SBOX[byte as usize]))
}

/// The four bytes that ShiftRows brings into a column.
fn shifted(state: &[u32; 4], column: usize) -> [usize; 4] {
    [0, 1, 2, 3].map(|row| state[(column + row) % 4].to_be_bytes()[row] as usize)
}

#[derive(Clone)]
pub struct Schedule([[u32; 4]; 11]);

impl Schedule {
    pub fn new(key: &[u8; 16]) -> Self {
        let mut keys = [words(key); 11];
        let mut rcon = 1;
        for round in 1..11 {
            let before = keys[round - 1];
            let mut word = sub_word(before[3].rotate_left(8)) ^ u32::from_be_bytes([rcon, 0, 0, 0]);
            for column in 0..4 {
                word ^= before[column];
                keys[round][column] = word;
            }
            rcon = xtime(rcon);
        }
        Schedule(keys)
    }

    pub fn encrypt_block(&self, block: [u8; 16]) -> [u8; 16] {
        let mut state = words(&block);
        for (word, key) in state.iter_mut().zip(self.0[0]) {
            *word ^= key;
        }
        for key in &self.0[1..10] {
            state = [0, 1, 2, 3].map(|column| {
                let [a, b, c, d] = shifted(&state, column);
                let low = ROW0[c].rotate_right(16) ^ ROW0[d].rotate_right(24);
                ROW0[a] ^ ROW0[b].rotate_right(8) ^ low ^ key[column]
            });
        }
        let last = [0, 1, 2, 3].map(|column| {
            let bytes = shifted(&state, column).map(|byte| SBOX[byte]);
            u32::from_be_bytes(bytes) ^ self.0[10][column]
        });
        let mut out = [0; 16];
        for (bytes, word) in out.chunks_exact_mut(4).zip(last) {
            bytes.copy_from_slice(&word.to_be_bytes());
        }
        out
    }
}

fn words(bytes: &[u8; 16]) -> [u32; 4] {
    [0, 4, 8, 12]
        .map(|at| u32::from_be_bytes([bytes[at], bytes[at + 1], bytes[at + 2], bytes[at + 3]]))
}
