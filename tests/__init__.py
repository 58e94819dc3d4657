"""The tests of the tools, which tools/test runs."""
