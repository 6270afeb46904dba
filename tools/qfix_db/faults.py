"""What the tools cannot do, and how they write files."""
import os
import tempfile
from pathlib import Path


class Fault(Exception):
    """A command that cannot be done; its text is the one line that the person reads."""


def write_all(files):
    """Writes files, a path to its bytes: each whole under another name first, so that a fault leaves all of them as they were."""
    made = []
    try:
        for path, data in files.items():
            handle, name = tempfile.mkstemp(prefix=f".{Path(path).name}.", dir=Path(path).parent)
            made.append((name, path))
            with os.fdopen(handle, "wb") as out:
                out.write(data if isinstance(data, bytes) else data.encode())
            os.chmod(name, 0o644)
        for name, path in made:
            os.replace(name, path)
        made = []
    except OSError as error:
        raise Fault(f"{error.filename or 'a file'} could not be written: {error.strerror}") from error
    finally:
        for name, _ in made:
            if os.path.exists(name):
                os.unlink(name)


def read(path):
    """The bytes of a file."""
    try:
        return Path(path).read_bytes()
    except OSError as error:
        raise Fault(f"{path} could not be read: {error.strerror}") from error
