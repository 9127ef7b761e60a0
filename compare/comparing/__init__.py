"""Compares the answers of the original Rust, the checker and the port."""
