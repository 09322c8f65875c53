//! What is new since last time: the records that a newer list has behind an older one.

use crate::{check, Refusal};

/// The newer list's added records, as a part of it; the whole list where it was rewritten, and an
/// empty part on a refusal, which `rewritten` tells.
pub fn added<'a>(older: &[u8], newer: &'a [u8]) -> &'a [u8] {
    match rewritten(older, newer) {
        Ok(false) => &newer[older.len()..],
        Ok(true) => newer,
        Err(_) => &newer[..0],
    }
}

/// Whether the older list is no beginning of the newer. Refusals 1, 2, 3 to 6, 16 of the older
/// list, then those of the newer.
pub fn rewritten(older: &[u8], newer: &[u8]) -> Result<bool, Refusal> {
    let (old, new) = (check::records(older)?, check::records(newer)?);
    // The fields are all of a record's bytes: records are the same exactly where their bytes are.
    Ok(!new.starts_with(&old))
}
