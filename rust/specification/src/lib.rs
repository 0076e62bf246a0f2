//! The rules and claims of all crates as one page, docs/SPECIFICATION.md, in the order of the documents: of each part the sentences as
//! docs/CLAIMS.md has them, the definitions, and the claims with their theorems. And for any sentence its definitions and theorems.
//!
//! The page is made of its sources alone, so the same sources give the same bytes; a rule, a claim or a sentence that has no part
//! is an error, and so is a definition that comes behind its use.

#![forbid(unsafe_code)]

pub mod arranged;
pub mod cited;
pub mod draw;
pub mod markdown;
pub mod order;
pub mod page;
pub mod sentences;
pub mod sources;
