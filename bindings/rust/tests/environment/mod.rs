//! Numbers that the environment gives.

/// The number of this name, or the other one where it isn't given.
pub fn number(name: &str, otherwise: u64) -> u64 {
    std::env::var(name).ok().and_then(|text| text.parse().ok()).unwrap_or(otherwise)
}
