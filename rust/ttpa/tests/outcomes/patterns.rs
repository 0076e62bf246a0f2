//! Nine-bit patterns of the line.

use ttpa::{pattern, PatternClass, TtpaError};

const FIREWORKS: [u16; 8] = [0x178, 0x049, 0x0BA, 0x18B, 0x064, 0x155, 0x1A6, 0x097];

#[test]
fn each_pattern_has_one_of_three_classes() {
    let count = |class| (0..512).filter(|&of| pattern(of) == Ok(class)).count();
    let counts = [PatternClass::DataByte, PatternClass::Firework, PatternClass::Broken].map(count);
    assert_eq!(counts, [256, 8, 248]);
    assert!(FIREWORKS.iter().all(|&firework| pattern(firework) == Ok(PatternClass::Firework)));
}

#[test]
fn a_firework_with_the_other_parity_bit_is_data() {
    assert!(FIREWORKS.iter().all(|&firework| pattern(firework ^ 0x100) == Ok(PatternClass::DataByte)));
}

/// One flipped bit, or three, make the count of ones even; two leave it odd, and the byte is no firework's.
#[test]
fn a_firework_with_one_to_three_flipped_bits_is_none() {
    for firework in FIREWORKS {
        for mask in (1u16..512).filter(|mask| mask.count_ones() <= 3) {
            let odd = mask.count_ones() % 2 == 1;
            let class = if odd { PatternClass::DataByte } else { PatternClass::Broken };
            assert_eq!(pattern(firework ^ mask), Ok(class), "{firework:03X} ^ {mask:03X}");
        }
    }
}

#[test]
fn every_pattern_above_511_is_refused() {
    assert!((512..=u16::MAX).all(|above| pattern(above) == Err(TtpaError::Pattern)));
}
