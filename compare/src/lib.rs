//! What the programs of the comparison share: the line protocol, the list of calls and the sizes; the depot sheet over
//! the Rust, and the sheets that it is compared on. The protocol itself is described in PROTOCOL.md.

pub mod hard_sheets;
pub mod ops;
pub mod protocol;
pub mod sheet;
pub mod sizes;
