"""Reads and runs the cases under tests/: docs/TESTS.md has their formats."""
