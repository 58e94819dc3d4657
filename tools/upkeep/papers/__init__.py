"""What tools/papers judges papers by."""
