"""How a command ends: 0 answered, 1 refused, 2 usage or a file that cannot be read, 3 anything else that went wrong."""

ANSWERED, REFUSED, USAGE, FAILED = 0, 1, 2, 3


class Ending(Exception):
    """A command that ends early, with a message on standard error."""

    status = FAILED


class Usage(Ending):
    status = USAGE


class Failed(Ending):
    status = FAILED
