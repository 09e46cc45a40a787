"""Runs over a range of seeds, on the processors of one machine or of many: docs/compare/SWEEP.md."""
