//! The guards that are compared: each by the calls of `include/sheetguard.h`.

/// A guard by its calls on lent words and numbers, which answer with the scope's numbers.
pub struct Guard {
    pub name: &'static str,
    pub role_setup: fn(table: &mut [u64], juniors: &[u64], permissions: &[u64]) -> u64,
    pub role_request: fn(table: &mut [u64], code: u64, a: u64, b: u64, c: u64) -> u64,
    pub alike: fn(first: &[u64], second: &[u64]) -> u64,
    pub label_setup: fn(table: &mut [u64], clearances: &[u8], labels: &[u8]) -> u64,
    pub label_request: fn(table: &mut [u64], code: u64, a: u64, b: u64, c: u64, spent: &mut u64) -> u64,
    pub compare_labels: fn(first: u64, second: u64) -> u64,
    pub effective_permissions: fn(table: &[u64], session: u64, masks: &mut [u64]) -> u64,
    pub authorised_roles: fn(table: &[u64], user: u64, roles: &mut [u64]) -> u64,
    pub open_tallied: fn(table: &mut [u64], counts: &mut [u32; 64], session: u64, object: u64, mode: u64) -> u64,
    pub statement: fn(counts: &[u32; 64], rate: u64, charges: &mut [u64; 64], total: &mut u64) -> u64,
}

/// The guard of a module that has these functions.
macro_rules! guard_of {
    ($module:ident, $name:literal) => {
        Guard {
            name: $name,
            role_setup: $module::role_setup,
            role_request: $module::role_request,
            alike: $module::alike,
            label_setup: $module::label_setup,
            label_request: $module::label_request,
            compare_labels: $module::compare_labels,
            effective_permissions: $module::effective_permissions,
            authorised_roles: $module::authorised_roles,
            open_tallied: $module::open_tallied,
            statement: $module::statement,
        }
    };
}

/// The second implementation.
pub const REFERENCE: Guard = guard_of!(reference, "second implementation");

/// The optimised guard in plain Rust.
pub const PLAIN: Guard = guard_of!(plain, "plain guard");

/// The proved guard, through its static library.
#[cfg(feature = "proved")]
pub const PROVED: Guard = {
    use sheetguard::numbers;
    guard_of!(numbers, "proved guard")
};

/// The guards that are held to the second implementation.
pub const GUARDS: &[Guard] = &[
    PLAIN,
    #[cfg(feature = "proved")]
    PROVED,
];

/// The second implementation and every guard that is held to it.
pub fn guards() -> impl Iterator<Item = &'static Guard> {
    [&REFERENCE].into_iter().chain(GUARDS)
}
