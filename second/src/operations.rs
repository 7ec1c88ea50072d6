//! The list of all that is compared, operation by operation. A new operation is one more module, its name in
//! `operation.rs`, its call in `call.rs` and a line here.

pub mod chain;
pub mod chains;
pub mod changes;
pub mod check;
pub mod compose;
pub mod left_part;
pub mod part;
pub mod quick;
pub mod sheets;
pub mod split;
pub mod texts;

use crate::entry::Entry;

#[rustfmt::skip]
pub const ALL: &[Entry] = &[
    check::ENTRY, compose::ENTRY,
    left_part::ENTRY, left_part::TINY, left_part::NEAR,
    split::ENTRY, split::TINY, split::NEAR,
    quick::ENTRY, quick::TINY, quick::NEAR,
    changes::POLYNOMIAL, changes::PAIR, changes::COMBINE, changes::UNDO,
    chain::ENTRY, chain::TINY,
    chains::COUNT, chains::NTH, chains::EVERY, chains::TINY,
    part::ENTRY, sheets::WRITE, sheets::READ,
    texts::READ, texts::NEAR, texts::TINY, texts::WRITE,
];
