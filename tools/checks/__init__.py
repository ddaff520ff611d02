"""Checks of a crate by `rattle check`, and what they cost."""
