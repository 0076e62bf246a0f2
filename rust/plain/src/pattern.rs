//! Nine-bit patterns of the line: a table of all 512, which the compiler fills.

const PATTERNS: usize = 512;
const ABOVE: u8 = 31;
const DATA_BYTE: u8 = 0;
const FIREWORK: u8 = 1;
const BROKEN: u8 = 2;

static CLASSES: [u8; PATTERNS] = classes();

const fn classes() -> [u8; PATTERNS] {
    let mut classes = [DATA_BYTE; PATTERNS];
    let mut pattern = 0;
    while pattern < PATTERNS {
        if pattern.count_ones() % 2 == 1 {
            let listed = matches!(pattern & 0xFF, 0x78 | 0x49 | 0xBA | 0x8B | 0x64 | 0x55 | 0xA6 | 0x97);
            classes[pattern] = if listed { FIREWORK } else { BROKEN };
        }
        pattern += 1;
    }
    classes
}

pub fn pattern(pattern: u16, kind: &mut u8) -> u8 {
    match CLASSES.get(usize::from(pattern)) {
        Some(&class) => {
            *kind = class;
            0
        }
        None => ABOVE,
    }
}
