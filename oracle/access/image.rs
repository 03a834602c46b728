
// ---- What follows is not published: it opens the private parts to the comparison. ----

/// A picture of the given bits; bytes beyond the picture's are dropped.
pub fn binary_of(width: u32, height: u32, bits: &[u8]) -> Binary {
    let bytes = (width as usize * height as usize).div_ceil(8);
    Binary {
        width,
        height,
        bits: bits[..bytes].to_vec(),
    }
}

/// The bytes of a picture, unused bits included.
pub fn bits_of(bin: &Binary) -> &[u8] {
    &bin.bits
}
