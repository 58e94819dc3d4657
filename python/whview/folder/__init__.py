"""The commands of `whview folder`, a module each, and what they share."""
