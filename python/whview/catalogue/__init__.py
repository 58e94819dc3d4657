"""Catalogues: their views and kinds, as TOML and bundles have them, and what their definitions make of rows."""
