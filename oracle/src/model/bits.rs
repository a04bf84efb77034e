//! Bytes as lists of bits, from the top of each byte, and back.

/// `count` bits of `bytes`, from number `offset` on. They lie inside.
pub fn bits_of(bytes: &[u8], offset: u64, count: u64) -> Vec<bool> {
    (offset..offset + count).map(|i| bytes[(i / 8) as usize] >> (7 - i % 8) & 1 == 1).collect()
}

/// `bits` written at bit 0 of `out`: their bytes, zero bits after the last; later bytes stay.
pub fn write_bits(out: &mut [u8], bits: &[bool]) {
    for (byte, chunk) in out.iter_mut().zip(bits.chunks(8)) {
        *byte = 0;
        for (i, bit) in chunk.iter().enumerate() {
            if *bit {
                *byte |= 0x80 >> i;
            }
        }
    }
}

/// The low `count` bits of `number`, the highest first.
pub fn bits_of_number(number: u64, count: u32) -> Vec<bool> {
    (0..count).rev().map(|i| number >> i & 1 == 1).collect()
}

/// All bits of `bytes`.
pub fn all_bits(bytes: &[u8]) -> Vec<bool> {
    bits_of(bytes, 0, 8 * bytes.len() as u64)
}
