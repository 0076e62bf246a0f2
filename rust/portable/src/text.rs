//! The text of an expression: how its operators bind, which parentheses, casts and suffixes give it the term's meaning, whether the processor's
//! int has 16 or 32 bits.

use crate::tree::{Binary, Ty, Width};

/// How tightly the outermost operator of a text binds.
#[derive(Clone, Copy, Debug, PartialEq, Eq, PartialOrd, Ord)]
pub enum Rank {
    Primary,
    Prefix,
    Product,
    Sum,
    Shift,
    Order,
    Equal,
    And,
    Xor,
    Or,
    Both,
    Either,
}

pub struct Text {
    pub text: String,
    pub rank: Rank,
}

impl Text {
    pub fn primary(text: impl Into<String>) -> Text {
        Text { text: text.into(), rank: Rank::Primary }
    }

    pub fn up_to(self, rank: Rank) -> String {
        if self.rank <= rank {
            self.text
        } else {
            format!("({})", self.text)
        }
    }
}

/// Whether a literal stands where its type is seen: shifted, or beside another literal, it would be computed as int.
#[derive(Clone, Copy, PartialEq, Eq)]
pub enum Literal {
    Bare,
    Typed,
}

/// A constant of the width's own type where that is seen, or where int does not hold it: one of 32 bits would be a long, and what is computed
/// with it would keep bits above them; two of 16 bits would be multiplied as an int, which may have no more.
pub fn number_text(width: Width, number: u64, literal: Literal) -> String {
    let digits = if number > u64::from(u32::MAX) {
        format!("{number:#X}").replace("0X", "0x")
    } else {
        number.to_string()
    };
    match (width, literal) {
        (Width::W64, Literal::Typed) => format!("UINT64_C({digits})"),
        (Width::W64, _) if number > u64::from(u32::MAX) => format!("UINT64_C({digits})"),
        (Width::W32, Literal::Typed) => format!("UINT32_C({digits})"),
        (Width::W32, _) if number > i32::MAX as u64 => format!("UINT32_C({digits})"),
        (Width::W16, Literal::Typed) => format!("UINT16_C({digits})"),
        _ => digits,
    }
}

/// C computes what is narrower than 32 bits as int: a result is brought back to its own width.
pub fn narrowed(ty: &Ty) -> &'static str {
    match ty {
        Ty::Int(Width::W8) => "(uint8_t)",
        Ty::Bool => "(_Bool)",
        Ty::Int(Width::W16) => "(uint16_t)",
        _ => "",
    }
}

pub fn operator(operation: Binary) -> (&'static str, Rank) {
    match operation {
        Binary::Add => ("+", Rank::Sum),
        Binary::Sub => ("-", Rank::Sum),
        Binary::Mul => ("*", Rank::Product),
        Binary::Div => ("/", Rank::Product),
        Binary::Rem => ("%", Rank::Product),
        Binary::And => ("&", Rank::And),
        Binary::Or => ("|", Rank::Or),
        Binary::Xor => ("^", Rank::Xor),
        Binary::Shl => ("<<", Rank::Shift),
        Binary::Shr => (">>", Rank::Shift),
        Binary::Eq => ("==", Rank::Equal),
        Binary::Ne => ("!=", Rank::Equal),
        Binary::Lt => ("<", Rank::Order),
        Binary::Le => ("<=", Rank::Order),
        Binary::Gt => (">", Rank::Order),
        Binary::Ge => (">=", Rank::Order),
        Binary::Both => ("&&", Rank::Both),
        Binary::Either => ("||", Rank::Either),
        Binary::Offset | Binary::Cut => ("+", Rank::Sum),
    }
}

/// What stands without parentheses beside an operator. Only what every reader knows does: sums of products, comparisons of sums, what is asked of
/// comparisons, and a row of one operator from the left.
pub fn within(rank: Rank, is_left: bool) -> Rank {
    match (rank, is_left) {
        (Rank::Sum, true) => Rank::Sum,
        (Rank::Sum, false) => Rank::Product,
        (Rank::Order | Rank::Equal, _) => Rank::Sum,
        (Rank::Both | Rank::Either, _) => Rank::Equal,
        _ => Rank::Prefix,
    }
}
