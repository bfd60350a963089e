"""Tests of the tools for people. `tools/check` runs them."""
