"""Why no release is made."""


class Refused(Exception):
    """A reason, as one line for the user."""
