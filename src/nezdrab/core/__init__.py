"""The machine as a library: programs that run, lines and their replies, the past, questions, files
of sessions. This is all that `from nezdrab import Machine` reads, and it uses no other room."""
