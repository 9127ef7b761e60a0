"""Questions from a seed; shares no code with the checker or the Rust's shim."""
