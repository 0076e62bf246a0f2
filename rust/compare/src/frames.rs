//! Frames that draws, edges and sorts make or tell apart.

/// Rounds 0, 2, 3, 4, 6 and 7.
pub const MULTIPARTNER: [u8; 6] = [0x78, 0xBA, 0x8B, 0x64, 0xA6, 0x97];

/// A whole frame of a multipartner round.
pub fn is_multipartner(frame: &[u8]) -> bool {
    matches!(frame, [firework] if MULTIPARTNER.contains(firework))
}

/// The firework, the four bytes and their check, into which the firework is folded.
pub fn framed(firework: u8, [a, b, c, d]: [u8; 4]) -> Vec<u8> {
    vec![firework, a, b, c, d, firework ^ a ^ b ^ c ^ d]
}

/// The same with the check of the four bytes alone, which lacks the firework.
pub fn unfolded(firework: u8, [a, b, c, d]: [u8; 4]) -> Vec<u8> {
    vec![firework, a, b, c, d, a ^ b ^ c ^ d]
}

/// A frame of six bytes whose check lacks the firework.
pub fn is_unfolded(frame: &[u8]) -> bool {
    matches!(*frame, [firework, a, b, c, d, _] if frame == unfolded(firework, [a, b, c, d]))
}
