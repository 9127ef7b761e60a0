"""Document 01's answers, written from its words; shares no code with the Rust or its shim."""
