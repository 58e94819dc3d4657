"""Tests of views as people write them."""
