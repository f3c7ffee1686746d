"""Tests of the desk, on real processes."""
