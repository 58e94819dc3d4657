"""The product round the proved program: nights of a folder, SQL scripts of nights for databases, tables that applications write to, and
nights on ClickHouse servers. It stands on Python's own library alone."""

import csv

VERSION = "0.1"

# A cell may be as long as an input.
csv.field_size_limit(2**26)
