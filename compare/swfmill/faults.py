"""What ends a comparison."""


class Difference(Exception):
    """The listing and swfmill do not say the same of a text."""


class Unable(Exception):
    """The script could not do its work."""
