"""What runs against the built program, the commands and real servers, by what it tries; `trials/run` runs each, and lists all."""

import csv

# A cell may be as long as an input.
csv.field_size_limit(2**26)
