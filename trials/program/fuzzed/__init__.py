"""The program, fuzzed by AFL++: how it is built with what tells which code runs, how bundles are changed, and how findings are judged."""
