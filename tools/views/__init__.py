"""Views of a run: what tools/show, tools/draw and tools/try make of what `show --json` writes."""
