"""Folders whose catalogue is SQL: tables of CSV with kinds, and views as somebody wrote them, over an inner folder that keeps what these need."""
