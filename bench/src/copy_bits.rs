//! `copy_bits` of the crate, its very text: it is private there, and so stands here a second time.
//! A test compares it with oracle/src/value.rs.

#[rustfmt::skip]
pub fn copy_bits(src: &[u8], src_offset: usize, dst: &mut [u8], dst_offset: usize, nbits: usize) {
    // For each bit i in 0..nbits, extract the bit from `src`
    // and insert it into `dst`.
    for i in 0..nbits {
        let bit = (src[(src_offset + i) / 8] >> (7 - (src_offset + i) % 8)) & 1;
        dst[(dst_offset + i) / 8] |= bit << (7 - (dst_offset + i) % 8);
    }
}

#[cfg(test)]
mod tests {
    /// From the function's name to its closing brace.
    fn text_of(file: &str) -> &str {
        let start = file.find("fn copy_bits(").expect("it is there");
        let length = file[start..].find("\n}\n").expect("it ends") + 3;
        &file[start..start + length]
    }

    #[test]
    fn it_is_the_crates_text() {
        assert_eq!(text_of(include_str!("copy_bits.rs")), text_of(include_str!("../../oracle/src/value.rs")));
    }
}
