"""Judges a record of the calls of any PSCI firmware, which is a black box (docs/compare/JUDGE.md)."""
