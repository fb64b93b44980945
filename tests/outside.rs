//! What the test programs and the benchmark share: the independent decoder, and the making of cases.

pub mod chance;
pub mod contradiction;
pub mod damage;
pub mod oracle;
pub mod sheet;
pub mod stored;
