//! Stand-in for modulated values: none are used.
