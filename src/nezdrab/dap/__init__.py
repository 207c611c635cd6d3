"""`explore dap`: editors as clients of explore, by the Debug Adapter Protocol. What is debugged is
a recorded run, and where it stands is a turn: the current one of explore. It stands on shell."""
