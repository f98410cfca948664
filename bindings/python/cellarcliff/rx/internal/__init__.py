"""The exceptions of RxPY's internal module that users meet."""


class DisposedException(Exception):
    """The object was disposed of."""

    def __init__(self, msg: str = "Object has been disposed"):
        super().__init__(msg)


class SequenceContainsNoElementsError(Exception):
    """An observable completed without an item, and one was wanted."""

    def __init__(self, msg: str = "Sequence contains no elements"):
        super().__init__(msg)


class ArgumentOutOfRangeException(ValueError):
    """An argument is less or more than it may be."""

    def __init__(self, msg: str = "Argument out of range"):
        super().__init__(msg)


class WouldBlockException(Exception):
    """A scheduler that does all at once was asked to wait."""

    def __init__(self, msg: str = "Would block"):
        super().__init__(msg)


class Missing(NotImplementedError, AttributeError):
    """A name of RxPY's that is not here: an AttributeError too, so that hasattr() answers, and `from .. import` raises ImportError."""
