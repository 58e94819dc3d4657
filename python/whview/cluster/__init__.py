"""What `whview cluster` does: a warehouse on ClickHouse servers, whose versions are lists of slots."""
