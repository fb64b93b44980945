//! The independent decoder: what the library must answer, found by other means.
//!
//! It is written from the requirements and from the paper alone, and shares no line and no table with
//! the library. The library goes row by row and eliminates over the plan's field. Here everything is
//! a sum of bits: a symbol of GF(16) is four bits and one of GF(256) eight, multiplying by a fixed element is linear
//! in them, and columns over such a field are independent exactly if their bits are. So one small tool, `binary::Span`,
//! which says whether a vector of bits is a sum of given ones, serves every plan:
//!
//! - the codeword test, encoding and `stripe::agreeing` take all checks of the stripe at once, as the paper's
//!   matrix H has them;
//! - mending takes the checks of all rows up to a level as one system, a level at a time;
//! - the steps of the bench ask whether one row's sums, or one level's totals, can be met, and whether in one way alone.
//!
//! The interleaved form of plan 3 alone divides polynomials.
//!
//! The eleven functions below have the buffers and the answers of the library's C names.

pub mod answers;
pub mod bench;
pub mod binary;
pub mod file;
pub mod interleaved;
pub mod mending;
pub mod plan;
pub mod stripe;
pub mod text;

pub use bench::{level_step, row_step, start};
pub use file::{read_file, write_file};
pub use interleaved::is_interleaved;
pub use mending::mend;
pub use plan::Plan;
pub use stripe::{encode, extract, is_codeword};
pub use text::text;
