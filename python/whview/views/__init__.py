"""Views as people write them: taken apart into what can be kept, and read back as they were written."""
