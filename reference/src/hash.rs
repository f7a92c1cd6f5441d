//! The hash that stands for many bytes in the printed listings.

const MODULUS: u64 = 4_294_967_291;

/// A running hash over bytes.
#[derive(Clone, Copy, Default)]
pub struct Hash {
    value: u64,
}

impl Hash {
    pub fn new() -> Self {
        Hash::default()
    }

    pub fn take(&mut self, bytes: &[u8]) {
        for &byte in bytes {
            self.value = (self.value * 257 + u64::from(byte) + 1) % MODULUS;
        }
    }

    pub fn value(self) -> u64 {
        self.value
    }
}

/// The hash of one run of bytes.
pub fn hash(bytes: &[u8]) -> u64 {
    let mut running = Hash::new();
    running.take(bytes);
    running.value()
}

#[cfg(test)]
mod tests {
    use super::*;

    #[test]
    fn starts_at_zero_and_counts_zero_bytes() {
        assert_eq!(hash(&[]), 0);
        assert_eq!(hash(&[0]), 1);
        assert_eq!(hash(&[0, 0]), 258);
        assert_eq!(hash(&[255, 3]), 256 * 257 + 4);
    }
}
