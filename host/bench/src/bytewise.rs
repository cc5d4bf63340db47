//! The plain checksum that the port is held against: a byte at a time over a static table.

static TABLE: [u32; 256] = table();

const fn table() -> [u32; 256] {
    let mut out = [0; 256];
    let mut i = 0;
    while i < 256 {
        let mut entry = i as u32;
        let mut bit = 0;
        while bit < 8 {
            entry = (entry >> 1) ^ (0xEDB8_8320 * (entry & 1));
            bit += 1;
        }
        out[i] = entry;
        i += 1;
    }
    out
}

/// Not inlined, since the port's functions are not either.
#[inline(never)]
pub fn crc32(data: &[u8]) -> u32 {
    let mut crc = !0;
    for &byte in data {
        crc = TABLE[((crc ^ u32::from(byte)) & 0xFF) as usize] ^ (crc >> 8);
    }
    !crc
}

#[cfg(test)]
mod tests {
    #[test]
    fn gives_the_check_value() {
        assert_eq!(super::crc32(b"123456789"), 0xCBF4_3926);
    }
}
