"""What can't be used, in one line."""


class Unusable(ValueError):
    """A file that can't be used. Its text is one line: the file, the line in it where one is known, and why."""


class TraceError(Unusable):
    """A file that is no whole trace, or a trace that doesn't belong to the model."""


class ModelError(Unusable):
    """A file that is no model, as far as the tools read one."""
