"""What the commands are given of each engine."""
