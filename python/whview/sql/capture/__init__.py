"""Tables that applications go on writing to: their changes are captured, and catalogues, sizes and plans come from the database."""
