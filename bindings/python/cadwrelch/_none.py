"""What is cached for the None that a function returned whose results are cached: see cached."""


class _None:
    """The type of NONE, which has one object."""

    __slots__ = ()

    def __repr__(self):
        return 'cadwrelch.NONE'

    def __bool__(self):
        return False

    def __reduce__(self):
        return 'NONE'


NONE = _None()
