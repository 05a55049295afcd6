"""Cases that show what the program does, for scripts/test_program."""
