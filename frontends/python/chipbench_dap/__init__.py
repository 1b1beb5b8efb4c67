"""A debug adapter for sources of chipbench, which editors start: forward and back in time, by the Debug Adapter Protocol."""
