//! The small functions of C that the file has beside the program's own, each only where it is needed.

use crate::declare::{c_type, pointer, short};
use crate::layout::Lines;
use crate::tree::Ty;

/// A small function of C that the file needs beside the program's own.
#[derive(Clone, PartialEq, Eq, PartialOrd, Ord)]
pub enum Helper {
    LeadingZeros,
    TrailingZeros,
    Cut(bool, Ty),
    Lend(Ty),
}

impl Helper {
    pub fn name(&self) -> String {
        match self {
            Helper::LeadingZeros => "leading_zeros".to_string(),
            Helper::TrailingZeros => "trailing_zeros".to_string(),
            Helper::Cut(false, of) => format!("cut_{}", short(of)),
            Helper::Cut(true, of) => format!("cut_mut_{}", short(of)),
            Helper::Lend(of) => format!("lend_{}", short(of)),
        }
    }

    pub fn write(&self, lines: &mut Lines) {
        let name = self.name();
        let (comment, heading, body): (&str, String, Vec<String>) = match self {
            Helper::LeadingZeros => (
                "How many zero bits stand above the highest that is one; 64 where none is.",
                format!("static inline uint32_t {name}(uint64_t bits)"),
                zeros(true),
            ),
            Helper::TrailingZeros => (
                "How many zero bits stand below the lowest that is one; 64 where none is.",
                format!("static inline uint32_t {name}(uint64_t bits)"),
                zeros(false),
            ),
            Helper::Cut(mutable, of) => {
                let pointer = pointer(*mutable, of);
                (
                    "Where a slice begins that is cut from another: nothing is added to a pointer that may be NULL.",
                    format!("static inline {pointer}{name}({pointer}at, uint64_t from)"),
                    vec!["return from == 0 ? at : at + from;".to_string()],
                )
            }
            Helper::Lend(of) => {
                let given = c_type(&Ty::Slice { mutable: true, of: Box::new(of.clone()) });
                let lent = c_type(&Ty::Slice { mutable: false, of: Box::new(of.clone()) });
                (
                    "A slice lent for reading alone.",
                    format!("static inline {lent} {name}({given} slice)"),
                    vec![format!("return ({lent}){{slice.at, slice.len}};")],
                )
            }
        };
        lines.comment(&[comment.to_string()]);
        lines.add(&heading);
        lines.add("{");
        body.iter().for_each(|line| lines.add(line));
        lines.add("}");
        lines.blank();
    }
}

/// Zeros counted by the compiler's own function where it has one, and else by halves: 32, 16, 8, 4, 2 and 1 bits. The macro is for a
/// test of the second way.
fn zeros(from_top: bool) -> Vec<String> {
    let builtin = if from_top { "__builtin_clzll" } else { "__builtin_ctzll" };
    let mut body = vec![
        "#if defined(__GNUC__) && !defined(TTPA_WITHOUT_BUILTINS)".to_string(),
        format!("return bits == 0 ? 64 : (uint32_t){builtin}(bits);"),
        "#else".to_string(),
        "uint32_t zeros = 0;".to_string(),
    ];
    body.extend(["if (bits == 0) {", "return 64;", "}"].map(String::from));
    for half in [32, 16, 8, 4, 2, 1] {
        let (test, shift) = if from_top {
            (format!("(bits >> {}) == 0", 64 - half), "<<")
        } else {
            (format!("(bits & UINT64_C({:#x})) == 0", (1u64 << half) - 1), ">>")
        };
        body.push(format!("if ({test}) {{"));
        body.push(format!("zeros += {half};"));
        body.push(format!("bits {shift}= {half};"));
        body.push("}".to_string());
    }
    body.extend(["return zeros;", "#endif"].map(String::from));
    body
}
