//! Refusals 12 and 13, by bits.

pub const COSINE: u64 = 1;

/// 12 or 13.
pub fn check_coordinates(metric: u64, coordinates: &[u8]) -> Result<(), u32> {
    let bits: Vec<u32> =
        coordinates.chunks_exact(4).map(|chunk| u32::from_le_bytes(chunk.try_into().unwrap())).collect();
    if bits.iter().any(|&bits| is_not_finite(bits)) {
        return Err(12);
    }
    if metric == COSINE && bits.iter().all(|&bits| is_zero(bits)) {
        return Err(13);
    }
    Ok(())
}

fn is_not_finite(bits: u32) -> bool {
    bits & 0x7F80_0000 == 0x7F80_0000
}

fn is_zero(bits: u32) -> bool {
    bits & 0x7FFF_FFFF == 0
}
