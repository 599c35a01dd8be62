"""Tests of what proves the crates and tries their wrong bodies."""
