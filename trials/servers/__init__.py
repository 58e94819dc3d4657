"""Servers and engines of the trials' own, and packages that are installed for them."""
