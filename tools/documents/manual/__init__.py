"""The manual pages of the programs, and what completes their options in a shell."""
