//! The crate's cursors are not taken; `node.rs` names this module.
