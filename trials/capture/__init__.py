"""What trials/run capture does: applications that write while nights run, and whatever may stop either."""
