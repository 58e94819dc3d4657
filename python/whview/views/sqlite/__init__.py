"""Views in SQLite's words, over tables that a catalogue of SQL declares: rows of these are computed, and views read, by the sqlite3 that Python has."""
