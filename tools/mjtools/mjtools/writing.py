"""Files that are written whole or not at all."""

import os
import tempfile
from contextlib import contextmanager
from pathlib import Path


@contextmanager
def whole_file(path, mode="wb"):
    """A file to write that takes the name `path` where the block ends well; otherwise nothing is left."""
    path = Path(path)
    try:
        handle, room = tempfile.mkstemp(prefix=f".{path.name}.", dir=path.parent)
    except OSError as fault:
        raise OSError(fault.errno, fault.strerror, str(path)) from None
    try:
        with os.fdopen(handle, mode) as file:
            yield file
        os.chmod(room, 0o666 & ~_mask())
        os.replace(room, path)
    except BaseException:
        os.unlink(room)
        raise


def _mask():
    """The process's mask of permissions, which can only be read by setting it."""
    mask = os.umask(0)
    os.umask(mask)
    return mask
