//! Document 01 read plainly, with the flush key and the limit on keys of document 02, wishes 3 and 4: wide counts, no bucket step, no
//! tricks. It is the judge where the Rust is not (refusals, memory, inputs outside the stated ones), and it is held to the Rust itself
//! wherever the Rust decides.

pub mod attempt;
pub mod flush;
pub mod hash;
pub mod layout;
pub mod query;
pub mod room;
