"""Strategies, sizes and plans, read and written, and their rules."""
