"""What scripts/install writes beside the program."""
