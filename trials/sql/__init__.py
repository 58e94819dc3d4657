"""Trials of scripts over tables that the scripts make, against the program, and cases of single tables."""
