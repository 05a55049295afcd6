"""How ./ftmpi comes to its program: `whole` has it made, by `making`, from `sources`."""
