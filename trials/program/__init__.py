"""Trials of the program alone."""
