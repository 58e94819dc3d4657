"""Trials of nights of a folder: its commands, its pages, and what stops them."""
