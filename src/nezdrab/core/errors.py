"""What goes wrong and is told to the user."""


class ExploreError(Exception):
    """Why a command can't be done, for the user to read."""


class LineRefused(ExploreError):
    """The program has refused a line, and its reply has been shown."""
