"""A shell at the terminal beside a source: a debugger that goes forward and back, on top of the module chipbench."""
