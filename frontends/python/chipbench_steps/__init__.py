"""Single steps for tests of emulators: a state before and a state after, as the program `chipbench` answers them."""
