//! CRC-32 of IEEE 802.3, bit by bit.

pub fn crc32(bytes: &[u8]) -> u32 {
    let mut crc = !0u32;
    for &byte in bytes {
        crc = TABLE[usize::from(crc as u8 ^ byte)] ^ (crc >> 8);
    }
    !crc
}

// One byte's eight steps, worked out once: without it large cases take minutes.
static TABLE: [u32; 256] = table();

const fn table() -> [u32; 256] {
    let mut table = [0; 256];
    let mut byte = 0;
    while byte < 256 {
        table[byte] = eight_steps(byte as u32);
        byte += 1;
    }
    table
}

const fn eight_steps(mut crc: u32) -> u32 {
    let mut step = 0;
    while step < 8 {
        let low = crc & 1;
        crc >>= 1;
        if low == 1 {
            crc ^= 0xEDB8_8320;
        }
        step += 1;
    }
    crc
}
