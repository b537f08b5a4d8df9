"""A second gridhom, written from docs/FORMATS.md and docs/DEFINITIONS.md alone, for small grids."""
