"""Inputs of fuzzers in one file: each once, by the sum of what stands in it."""
import gzip
import hashlib
import io
import os
import tarfile

# a packed file is a tar, and so also for other programs
ENDING = ".tar.gz"


def name_of(data):
    """What libFuzzer, too, calls this input."""
    return hashlib.sha1(data).hexdigest()


def found_in(folders):
    """The inputs in these folders by name."""
    found = {}
    for folder in folders:
        for entry in os.scandir(folder):
            if entry.is_file():
                with open(entry.path, "rb") as file:
                    data = file.read()
                found[name_of(data)] = data
    return found


def is_whole(folder):
    """Whether each input in a folder of libFuzzer's is what its name says: on a full disk it goes on."""
    return set(os.listdir(folder)) == set(found_in([folder]))


def packed(found):
    """These inputs as the bytes of a file."""
    out = io.BytesIO()
    with tarfile.open(fileobj=out, mode="w") as tar:
        for name, data in sorted(found.items()):
            head = tarfile.TarInfo(name)
            head.size = len(data)
            tar.addfile(head, io.BytesIO(data))
    return gzip.compress(out.getvalue(), mtime=0)


def unpack(path, folder):
    """Puts the inputs of a packed file into a folder, beside those that are there; how many they are."""
    os.makedirs(folder, exist_ok=True)
    with tarfile.open(path, "r:gz") as tar:
        many = 0
        for many, head in enumerate(tar, 1):
            data = tar.extractfile(head).read()
            with open(f"{folder}/{name_of(data)}", "wb") as file:
                file.write(data)
    return many
