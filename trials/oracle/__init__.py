"""What answers have to be, worked out by the rules alone."""
