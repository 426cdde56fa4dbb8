//! A Count-Min table of 4 rows of 1,024 cells.

const P: u64 = (1 << 61) - 1;
const WIDTH: usize = 1024;
const Z: u64 = 9351779398707216;
const ROWS: [(u64, u64); 4] = [
    (1961435785107874384, 490517405503193563),
    (1568216229337355262, 2152610774340793925),
    (1234567890123456789, 987654321098765432),
    (1122334455667788990, 998877665544332211),
];

/// Cells that are all 0.
pub fn cells() -> Vec<u64> {
    vec![0; ROWS.len() * WIDTH]
}

pub fn add(cells: &mut [u64], key: &[u8], weight: u64) {
    let mut fingerprint = 0;
    for &byte in key {
        fingerprint = multiply_add(fingerprint, Z, u64::from(byte) + 1);
    }
    for (r, &(a, b)) in ROWS.iter().enumerate() {
        let hash = multiply_add(a, fingerprint, b);
        cells[r * WIDTH + hash as usize % WIDTH] += weight;
    }
}

/// `a * b + c` modulo 2^61 - 1, for numbers below it.
fn multiply_add(a: u64, b: u64, c: u64) -> u64 {
    let wide = u128::from(a) * u128::from(b) + u128::from(c);
    let sum = (wide as u64 & P) + (wide >> 61) as u64;
    if sum < P { sum } else { sum - P }
}
