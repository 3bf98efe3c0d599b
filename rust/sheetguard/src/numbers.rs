//! The guard's calls as the C header has them, on slices and with the scope's numbers: 1 yes, 0 no, 12 to 23 a refusal;
//! how two labels stand is 0 equal, 1 above, 2 below or 3 apart.
//!
//! Any slice and any number may be passed; nothing here panics.

extern "C" {
    fn sheetguard_role_setup(
        table: *mut u64,
        words: usize,
        juniors: *const u64,
        n_juniors: usize,
        permissions: *const u64,
        n_permissions: usize,
    ) -> u64;
    fn sheetguard_role_request(table: *mut u64, words: usize, code: u64, a: u64, b: u64, c: u64) -> u64;
    fn sheetguard_alike(first: *const u64, n_first: usize, second: *const u64, n_second: usize) -> u64;
    fn sheetguard_label_setup(
        table: *mut u64,
        words: usize,
        clearances: *const u8,
        n_clearances: usize,
        labels: *const u8,
        n_labels: usize,
    ) -> u64;
    fn sheetguard_label_request(
        table: *mut u64,
        words: usize,
        code: u64,
        a: u64,
        b: u64,
        c: u64,
        spent: *mut u64,
    ) -> u64;
    fn sheetguard_compare_labels(first: u64, second: u64) -> u64;
    fn sheetguard_effective_permissions(
        table: *const u64,
        words: usize,
        session: u64,
        masks: *mut u64,
        n_masks: usize,
    ) -> u64;
    fn sheetguard_authorised_roles(table: *const u64, words: usize, user: u64, roles: *mut u64, n_roles: usize) -> u64;
    // the counts are the only field of the header's tally
    fn sheetguard_open_tallied(
        table: *mut u64,
        words: usize,
        tally: *mut [u32; 64],
        session: u64,
        object: u64,
        mode: u64,
    ) -> u64;
    fn sheetguard_statement(tally: *const [u32; 64], rate: u64, charges: *mut [u64; 64], total: *mut u64) -> u64;
}

// In every call below a slice gives its own pointer and length, so that the pointer is not null, is aligned and has as
// many elements as the length says; an array has those of its type. What is written is lent by `&mut`, so that it overlaps
// nothing.

/// Writes a fresh role table from 64 words of direct juniors and 8 words of permissions.
#[must_use]
pub fn role_setup(table: &mut [u64], juniors: &[u64], permissions: &[u64]) -> u64 {
    // SAFETY: see above
    unsafe {
        sheetguard_role_setup(
            table.as_mut_ptr(),
            table.len(),
            juniors.as_ptr(),
            juniors.len(),
            permissions.as_ptr(),
            permissions.len(),
        )
    }
}

/// A role request by its code and arguments.
#[must_use]
pub fn role_request(table: &mut [u64], code: u64, a: u64, b: u64, c: u64) -> u64 {
    // SAFETY: see above
    unsafe { sheetguard_role_request(table.as_mut_ptr(), table.len(), code, a, b, c) }
}

/// Whether two tables are alike: 1 or 0, or 12 or 13 for the first table, then for the second.
#[must_use]
pub fn alike(first: &[u64], second: &[u64]) -> u64 {
    // SAFETY: see above
    unsafe { sheetguard_alike(first.as_ptr(), first.len(), second.as_ptr(), second.len()) }
}

/// Writes a fresh label table from 64 clearances and 64 object labels.
#[must_use]
pub fn label_setup(table: &mut [u64], clearances: &[u8], labels: &[u8]) -> u64 {
    // SAFETY: see above
    unsafe {
        sheetguard_label_setup(
            table.as_mut_ptr(),
            table.len(),
            clearances.as_ptr(),
            clearances.len(),
            labels.as_ptr(),
            labels.len(),
        )
    }
}

/// A label request by its code and arguments; `spent` becomes the number of role requests made for it.
#[must_use]
pub fn label_request(table: &mut [u64], code: u64, a: u64, b: u64, c: u64, spent: &mut u64) -> u64 {
    // SAFETY: see above
    unsafe { sheetguard_label_request(table.as_mut_ptr(), table.len(), code, a, b, c, spent) }
}

/// How the first label stands to the second; 16 where a number is over 31.
#[must_use]
pub fn compare_labels(first: u64, second: u64) -> u64 {
    // SAFETY: no pointer is passed
    unsafe { sheetguard_compare_labels(first, second) }
}

/// Writes the effective permissions of a session into eight words.
#[must_use]
pub fn effective_permissions(table: &[u64], session: u64, masks: &mut [u64]) -> u64 {
    // SAFETY: see above
    unsafe { sheetguard_effective_permissions(table.as_ptr(), table.len(), session, masks.as_mut_ptr(), masks.len()) }
}

/// Writes the authorised roles of a user into one word.
#[must_use]
pub fn authorised_roles(table: &[u64], user: u64, roles: &mut [u64]) -> u64 {
    // SAFETY: see above
    unsafe { sheetguard_authorised_roles(table.as_ptr(), table.len(), user, roles.as_mut_ptr(), roles.len()) }
}

/// A role opening that advances the count of the session's user at a yes.
#[must_use]
pub fn open_tallied(table: &mut [u64], counts: &mut [u32; 64], session: u64, object: u64, mode: u64) -> u64 {
    // SAFETY: see above
    unsafe { sheetguard_open_tallied(table.as_mut_ptr(), table.len(), counts, session, object, mode) }
}

/// Writes the charge of each user in cents at a rate in cents per thousand openings, and the sum of the charges.
#[must_use]
pub fn statement(counts: &[u32; 64], rate: u64, charges: &mut [u64; 64], total: &mut u64) -> u64 {
    // SAFETY: see above
    unsafe { sheetguard_statement(counts, rate, charges, total) }
}
