//! How long the lent tables must be.

/// The words of the table of the lists: the map of 192 lists, and their heads.
pub const fn lists_length() -> usize {
    195
}

/// The words of the table of the live payloads, for an arena of so many bytes: a bit for each 16 of them.
pub const fn live_length(arena: usize) -> usize {
    arena / 1024 + 1
}

/// The words of the table of the regions, with room for so many of them; no more than a `usize` counts.
pub const fn regions_length(regions: usize) -> usize {
    regions.saturating_mul(2).saturating_add(1)
}
