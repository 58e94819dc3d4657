"""What trials/run cluster tries: nights on ClickHouse servers of its own."""
