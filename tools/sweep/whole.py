"""Files that are whole or not there.

A file gets its name only once all of it is on the disk: it is written under a name of its own beside it,
and renamed. Its last line is the sum of what stands before, so that what a crash, a full disk or a copy
cut short has left is told from what is whole.
"""
import glob
import hashlib
import json
import os
import socket


class Broken(Exception):
    """This file is not whole; the text says why."""


def write(path, data):
    """Writes these bytes: after this the file is whole, and after a fault it is as it was."""
    part = f"{path}.{socket.gethostname()}.{os.getpid()}.{os.urandom(4).hex()}.part"
    try:
        with open(part, "wb") as file:
            file.write(data)
            file.flush()
            os.fsync(file.fileno())
        os.replace(part, path)
    except OSError:
        if os.path.exists(part):
            os.unlink(part)
        raise
    folder = os.open(os.path.dirname(path), os.O_RDONLY)
    try:
        os.fsync(folder)
    finally:
        os.close(folder)


def clear(folder):
    """Takes away what writers that were killed have left."""
    for path in glob.glob(f"{glob.escape(folder)}/*.part"):
        os.unlink(path)


def write_summed(path, value):
    """Writes a value as JSON, with its sum behind it."""
    text = json.dumps(value, sort_keys=True, separators=(",", ":")).encode() + b"\n"
    write(path, text + hashlib.sha256(text).hexdigest().encode() + b"\n")


def read_summed(path):
    """The value in a file that has its sum behind it."""
    with open(path, "rb") as file:
        text, end, rest = file.read().partition(b"\n")
    if rest != hashlib.sha256(text + end).hexdigest().encode() + b"\n":
        raise Broken(f"{path} is incomplete or corrupt")
    return json.loads(text)
