"""Builds the program from a checkout, several crates at once, and tests what is in the checkout."""
