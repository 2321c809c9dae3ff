//! Document 01, "The box and its messages": "The checksum test says yes exactly when the bytes of
//! its area sum to 0 modulo 256; an empty area is a yes."

/// The sum of the bytes modulo 256.
fn sum(area: &[u8]) -> u8 {
    area.iter().fold(0, |sum: u8, byte| sum.wrapping_add(*byte))
}

/// The checksum test.
pub fn sums_to_zero(area: &[u8]) -> bool {
    sum(area) == 0
}

/// The byte that, put behind these, makes them sum to 0 modulo 256.
pub fn closing_byte(area: &[u8]) -> u8 {
    sum(area).wrapping_neg()
}

#[cfg(test)]
mod tests {
    use super::*;

    #[test]
    fn an_empty_area_is_a_yes() {
        assert!(sums_to_zero(&[]));
    }

    #[test]
    fn only_the_sum_modulo_256_counts() {
        assert!(sums_to_zero(&[0]));
        assert!(sums_to_zero(&[0xFF, 0x01]));
        assert!(sums_to_zero(&[0x80; 4]));
        assert!(!sums_to_zero(&[0x80; 3]));
        assert!(!sums_to_zero(&[1]));
    }

    #[test]
    fn the_closing_byte_closes_every_sum() {
        for first in 0..=255 {
            assert!(sums_to_zero(&[first, 7, closing_byte(&[first, 7])]));
        }
    }
}
