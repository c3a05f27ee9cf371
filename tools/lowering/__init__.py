"""Translates the text form that clang 19 writes into the subset that hippo reads."""
