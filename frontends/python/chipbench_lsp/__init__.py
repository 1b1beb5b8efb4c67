"""A language server for sources of chipbench, over the module chipbench."""
