//! 01, The program: a plain decimal without leading zeros, 0 to 4294967295.

/// Reads a number, or none where the bytes are no such decimal.
pub fn number_of(bytes: &[u8]) -> Option<u32> {
    if bytes.is_empty() || !bytes.iter().all(|byte| (b'0'..=b'9').contains(byte)) {
        return None;
    }
    if bytes.len() > 1 && bytes[0] == b'0' {
        return None;
    }
    // 4294967295 has ten digits, and ten digits fit in 64 bits
    if bytes.len() > 10 {
        return None;
    }
    let value = bytes.iter().fold(0u64, |value, byte| 10 * value + (byte - b'0') as u64);
    if value > 4294967295 {
        return None;
    }
    Some(value as u32)
}
