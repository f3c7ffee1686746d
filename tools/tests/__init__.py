"""Tests of the board's command, of tools/prove and of the header."""
