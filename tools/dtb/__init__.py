"""Reads device trees, and makes descriptions of machines of them: tools/board-from-dtb."""
