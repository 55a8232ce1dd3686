"""What a command reads and writes: blocks and texts from files or standard input, and files that are written whole or not at all."""
import os
import sys
import tempfile

from endings import Failed, Usage

MOST_READ = 32768  # 01: "It reads at most 32,768 bytes of a block on standard input (.. the rest is not read)"
MOST_OF_SCRIPT = 2024783  # the longest script and a byte: a longer text stops before its end


def open_to_read(path):
    if os.path.isdir(path):
        raise Usage("cannot read %s: it is a directory" % path)
    try:
        return open(path, "rb")
    except FileNotFoundError:
        raise Usage("cannot read %s: there is no such file" % path)
    except PermissionError:
        raise Usage("cannot read %s: not allowed" % path)
    except (OSError, ValueError) as error:
        raise Usage("cannot read %s: %s" % (path, getattr(error, "strerror", None) or error))


def read(path, most=-1):
    """The bytes of a file, or of standard input where there is no path; at most so many."""
    if path is None:
        if sys.stdin is None or sys.stdin.closed:
            raise Usage("cannot read standard input: %s" % os.environ.get("PLACARDPAN_INPUT", "it is closed"))
        try:
            return sys.stdin.buffer.read(most)
        except OSError:
            raise Usage("cannot read standard input")
    with open_to_read(path) as file:
        try:
            return file.read(most)
        except OSError as error:
            raise Usage("cannot read %s: %s" % (path, error.strerror))


def read_block(path):
    return read(path, MOST_READ)


def read_text(path):
    try:
        return read(path).decode("utf-8")
    except UnicodeDecodeError:
        raise Usage("cannot read %s: it is no text in UTF-8" % (path or "standard input"))


def put(text):
    """A text to standard output."""
    put_bytes(text.encode("utf-8"))


def put_bytes(some):
    if sys.stdout is None:
        raise Failed("cannot write to standard output: it is closed")
    try:
        sys.stdout.buffer.write(some)
        sys.stdout.buffer.flush()
    except BrokenPipeError:
        raise
    except OSError as error:
        raise Failed("cannot write to standard output: %s" % error.strerror)


def write(path, some):
    """Bytes to a file: to a new one first, then in one move, so that a cut leaves the old file or the new one."""
    folder = os.path.dirname(os.path.abspath(path))
    new = None
    try:
        handle, new = tempfile.mkstemp(prefix=".placardpan-", dir=folder)
        with os.fdopen(handle, "wb") as file:
            file.write(some)
            file.flush()
            os.fsync(file.fileno())
        if os.path.exists(path):
            os.chmod(new, os.stat(path).st_mode & 0o777)
        else:
            mask = os.umask(0)
            os.umask(mask)
            os.chmod(new, 0o666 & ~mask)
        os.replace(new, path)
        new = None
        folder_handle = os.open(folder, os.O_RDONLY)
        try:
            os.fsync(folder_handle)
        finally:
            os.close(folder_handle)
    except OSError as error:
        raise Failed("cannot write %s: %s" % (path, error.strerror))
    finally:
        if new is not None and os.path.exists(new):
            os.remove(new)
