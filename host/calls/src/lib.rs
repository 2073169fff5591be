//! Calls over one family of sheets, ready to be timed or measured.

mod desk;
mod edits;
mod verifier;

pub use desk::Desk;
pub use edits::{last_name, most_needed, own_group};
pub use verifier::{Verifier, KERDZHUSI, REFERENCE};
