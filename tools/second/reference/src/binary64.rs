//! A binary64's 64 bits and the whole number of 1024ths that it is, by whole
//! numbers alone.

/// Of the fraction; above it stand the exponent's 11 bits and the sign's one.
const FRACTION: u32 = 52;
/// The exponent as it is stored is so much higher.
const BIAS: i128 = 1023;
/// Of an infinity or of no number.
const LAST_EXPONENT: i128 = 2047;
/// 1024 is 2 to so much.
const SHIFT: i128 = 10;

/// The bits of so many 1024ths; zero is plus zero.
pub fn of_1024ths(whole: i128) -> u64 {
    let size = whole.unsigned_abs();
    if size == 0 {
        return 0;
    }
    // The highest 1 is not stored: 2^highest is at most the size.
    let highest = size.ilog2();
    assert!(highest <= FRACTION, "{whole} has no exact binary64");
    let fraction = (size - (1 << highest)) << (FRACTION - highest);
    let exponent = (i128::from(highest) - SHIFT + BIAS) as u64;
    let sign = u64::from(whole < 0);
    sign << 63 | exponent << FRACTION | fraction as u64
}

/// 1,024 times the number of these bits, where that is whole and not beyond all
/// use. Both zeros are 0.
pub fn in_1024ths(bits: u64) -> Option<i128> {
    let fraction = i128::from(bits & ((1 << FRACTION) - 1));
    let exponent = i128::from(bits >> FRACTION & 0x7ff);
    let size = match exponent {
        LAST_EXPONENT => None,
        // Less than the least that is stored with its highest 1.
        0 => (fraction == 0).then_some(0),
        _ => shifted(
            fraction + (1 << FRACTION),
            exponent - BIAS - i128::from(FRACTION) + SHIFT,
        ),
    };
    size.map(|size| if bits >> 63 == 1 { -size } else { size })
}

/// size × 2^by, where that is whole.
fn shifted(size: i128, by: i128) -> Option<i128> {
    match by {
        0..=64 => Some(size << by),
        -64..=-1 if size % (1 << -by) == 0 => Some(size >> -by),
        _ => None,
    }
}

#[cfg(test)]
mod tests {
    use super::*;

    /// 1 is 2^0; -3/2 has the fraction's highest bit; 1/1024 is 2^-10.
    #[test]
    fn bits_worked_out_by_hand() {
        for (whole, bits) in [
            (0, 0),
            (1, 0x3f50_0000_0000_0000),
            (1024, 0x3ff0_0000_0000_0000),
            (-1024, 0xbff0_0000_0000_0000),
            (-1536, 0xbff8_0000_0000_0000),
            (2048, 0x4000_0000_0000_0000),
            ((1 << 53) - 1, 0x429f_ffff_ffff_ffff),
        ] {
            assert_eq!(of_1024ths(whole), bits, "{whole}");
            assert_eq!(in_1024ths(bits), Some(whole), "{whole}");
        }
    }

    /// As the processor has them, up to the largest scores.
    #[test]
    fn bits_of_floats() {
        let largest = 1024 * 2_000_000_000_000i64;
        let mut whole = largest;
        while whole > 0 {
            for whole in [whole, -whole, whole + 1, 1 - whole, largest - whole] {
                let float = whole as f64 / 1024.0 + 0.0;
                assert_eq!(of_1024ths(whole.into()), float.to_bits(), "{whole}");
                assert_eq!(in_1024ths(float.to_bits()), Some(whole.into()));
            }
            whole = whole * 2 / 3;
        }
    }

    #[test]
    fn what_is_not_whole() {
        for float in [
            f64::NAN,
            f64::INFINITY,
            f64::MIN_POSITIVE,
            f64::MAX,
            5e-324,
            0.1,
            1.0 / 2048.0,
            -3.0 / 2048.0,
        ] {
            assert_eq!(in_1024ths(float.to_bits()), None, "{float}");
        }
        assert_eq!(in_1024ths((-0.0f64).to_bits()), Some(0));
    }
}
