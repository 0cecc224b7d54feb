"""Encrypts, decrypts, checks and rewraps many files by the program `tink`, on many processors and machines."""
