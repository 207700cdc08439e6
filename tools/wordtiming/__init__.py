"""The parts of tools/wordtimes."""


class Fault(Exception):
    """Something that the user can put right: the message says what and where."""
