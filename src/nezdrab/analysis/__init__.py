"""What is asked of a machine in more than one line, and how it is told: why, follow, calls,
matters, sweeps, profiles, breakpoints. It stands on core."""
