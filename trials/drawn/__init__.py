"""What is drawn: views, rows, nights, schedules, shops, and bundles that are changed at random."""
