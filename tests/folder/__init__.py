"""The tests of whview folder."""
