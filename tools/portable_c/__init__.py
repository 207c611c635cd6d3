"""The programs in C, and compiled of that for Linux on ARM64."""
