//! Octets as digits by hand, in plain Rust without `unsafe`: a pair of them is looked up.

#![forbid(unsafe_code)]

/// The two hexadecimal digits of each octet.
const PAIRS: [[u8; 2]; 256] = pairs();

const fn pairs() -> [[u8; 2]; 256] {
    const DIGITS: &[u8; 16] = b"0123456789abcdef";
    let mut table = [[0; 2]; 256];
    let mut octet = 0;
    while octet < 256 {
        table[octet] = [DIGITS[octet >> 4], DIGITS[octet & 15]];
        octet += 1;
    }
    table
}

#[inline]
fn pair(octet: u8) -> [u8; 2] {
    PAIRS[usize::from(octet)]
}

/// Appends the digits of so many octets.
#[inline]
pub fn put_few<const N: usize>(text: &mut Vec<u8>, octets: &[u8; N]) {
    text.extend_from_slice(octets.map(pair).as_flattened());
}

/// Appends the digits of octets, of eight at once.
pub fn put_octets(text: &mut Vec<u8>, octets: &[u8]) {
    text.reserve(2 * octets.len());
    let (eights, rest) = octets.as_chunks::<8>();
    eights.iter().for_each(|eight| put_few(text, eight));
    rest.iter().for_each(|octet| text.extend_from_slice(&pair(*octet)));
}
