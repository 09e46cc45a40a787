#!/usr/bin/env python3
"""Scripts and texts that are stored in lists: scripts in tests/program/scripts/*.txt, texts in texts.txt and shown.txt.

    tests/program/stored.py print NAME             prints the script NAME, as calls/hw-off
    tests/program/stored.py unpack FOLDER [LIST..] writes each as files FOLDER/NAME.psci and .out, with .err and .status
                                                   where there are errors and the status is not 0
    tests/program/stored.py pack FOLDER [LIST..]   writes the lists anew with what such files say now
    tests/program/stored.py add FILE.psci..        puts scripts TOPIC/NAME.psci, with the files beside them, behind the
                                                   last one of their topic's list, and removes the files

LIST is a list of scripts or texts, and all those of scripts if left out. In a list of texts the first part is no
script but the words of a command line, and its file is NAME.words. A list begins with a head, whose lines have a '#';
the last of them say how the list is written (FORM). Each byte has one spelling: a list that would be written otherwise
is refused.
"""
import glob
import lzma
import os
import re
import sys
from collections import namedtuple

TOP = os.path.dirname(os.path.dirname(os.path.dirname(os.path.abspath(__file__))))
FOLDER = f"{TOP}/tests/program/scripts"
FORM = r"""# Behind `== NAME` stand the lines of a script, behind `-- out` its answers, behind `-- err` the words of its
# fault, in `-- status` its exit status, where there are some and it is not 0. The empty line before a `==` is of no
# script. In a line `\\` is a backslash and `\xHH` a byte: what is no printable ASCII, a space at the end, the first
# byte of what would be a mark. A `\` at the end of the last line says that no line feed follows.
"""

# the name of a script, its bytes, those of its answers and errors, and its status; and as much of a command line
Stored = namedtuple("Stored", "name script out err status")


class Wrong(Exception):
    """A list or a file that cannot be read, and why."""


# ---- lists

def spelled(data):
    """Bytes as the lines of a list."""
    *lines, rest = data.decode("latin-1").split("\n")
    lines = [re.sub(r"[^ -~]| \Z|^(?:=(?== )|-(?=- ))", lambda it: f"\\x{ord(it[0]):02x}", it.replace("\\", r"\\"))
             for it in [*lines, rest]]
    return "".join(f"{it}\n" for it in lines[:-1]) + (f"{lines[-1]}\\\n" if rest else "")


def bytes_of(text):
    """The bytes of the lines of a list."""
    kept = {"\\": "\\", "\n": ""}
    return re.sub(r"\\(\\|\n\Z|x([0-9a-f]{2}))", lambda it: chr(int(it[2], 16)) if it[2] else kept[it[1]],
                  text).encode("latin-1")


def entry(it):
    """What stands in a list of a script."""
    text = f"== {it.name}\n{spelled(it.script)}"
    text += f"-- out\n{spelled(it.out)}" if it.out else ""
    text += f"-- err\n{spelled(it.err)}" if it.err else ""
    return text + (f"-- status {it.status}\n" if it.status else "")


def stored_in(text):
    """A script by what stands behind its '== '."""
    name, _, text = text.partition("\n")
    script, *parts = re.split(r"^-- (out|err|status \d+)\n", text, flags=re.M)
    said = dict(zip(parts[::2], parts[1::2]))
    status = next((int(it.removeprefix("status ")) for it in said if it.startswith("status ")), 0)
    return Stored(name, *map(bytes_of, (script, said.get("out", ""), said.get("err", ""))), status)


def text_of(head, found):
    """The text of a list."""
    return "\n".join([head, *map(entry, found)])


def read(path):
    """The head of a list, and its scripts."""
    with open(path, encoding="latin-1", newline="\n") as file:
        text = file.read()
    # with its line feed the empty line before a mark is of no script
    head, *blocks = text.split("\n== ")
    if re.search(r"^[^#]", head, re.M):
        raise Wrong(f"{os.path.relpath(path, TOP)}: its head has a line without a '#'")
    found = [stored_in(it) for it in blocks]
    wanted = text_of(head, found)
    if text != wanted:
        lines = enumerate(zip(text.split("\n"), wanted.split("\n")), 1)
        at = next((f"line {number}" for number, (one, other) in lines if one != other), "its end")
        raise Wrong(f"{os.path.relpath(path, TOP)}, {at}: it would be written otherwise")
    return head, found


def write(path, head, found):
    with open(path, "w", encoding="ascii", newline="\n") as file:
        file.write(text_of(head, found))


def lists():
    """The lists of scripts."""
    return sorted(glob.glob(f"{FOLDER}/*.txt"))


def listed():
    """Each script of the lists, by its name; none may be left beside them as a file."""
    for path in glob.glob(f"{FOLDER}/*/*.psci"):
        raise Wrong(f"{os.path.relpath(path, TOP)} is in no list: tests/program/stored.py add puts it there")
    found = {}
    for path in lists():
        for it in read(path)[1]:
            if it.name in found:
                raise Wrong(f"{it.name} is stored twice")
            found[it.name] = it
    return found


def script(name):
    """The script NAME of a list."""
    found = listed()
    if name not in found:
        raise Wrong(f"no script {name} is stored")
    return found[name]


def append(it):
    """Puts a script at the end of the list that has what is called most alike in its topic, or begins one."""
    topic = it.name.split("/")[0]
    alike = {}
    for path in lists():
        for other in read(path)[1]:
            if other.name == it.name:
                raise Wrong(f"{it.name} is stored already, in {os.path.relpath(path, TOP)}")
            if other.name.startswith(f"{topic}/"):
                alike[len(os.path.commonprefix([it.name, other.name]))] = path
    path = alike[max(alike)] if alike else f"{FOLDER}/{topic}.txt"
    head, found = read(path) if alike else (f"# Stored scripts: {topic}.\n{FORM}", [])
    write(path, head, [*found, it])
    return path


# ---- files

def bytes_at(path):
    """The bytes of a file, or of its compressed form; none where there is neither."""
    for opened, name in ((open, path), (lzma.open, f"{path}.xz")):
        if os.path.exists(name):
            with opened(name, "rb") as file:
                return file.read()
    return b""


def stored_at(base, name, suffix="psci"):
    """A script by its files."""
    script, out, err, status = (bytes_at(f"{base}.{it}") for it in (suffix, "out", "err", "status"))
    return Stored(name, script, out, err, int(status or 0))


def examples(suffix):
    for path in sorted(glob.glob(f"{TOP}/examples/*{suffix}") + glob.glob(f"{TOP}/examples/*/*{suffix}")):
        base = path.removesuffix(suffix)
        yield stored_at(base, os.path.relpath(base, TOP))


def scripts():
    """Each stored script: those of the lists and of examples/."""
    yield from listed().values()
    yield from examples(".psci")


def packed():
    """The long ones of examples/, which are compressed."""
    yield from examples(".psci.xz")


def suffix_of(path):
    return "psci" if os.path.dirname(os.path.abspath(path)) == FOLDER else "words"


def unpack(folder, paths):
    if not paths:
        listed()
    for path in paths or lists():
        for it in read(path)[1]:
            base = f"{folder}/{it.name}"
            os.makedirs(os.path.dirname(base), exist_ok=True)
            files = {suffix_of(path): it.script, "out": it.out, **({"err": it.err} if it.err else {}),
                     **({"status": f"{it.status}\n".encode()} if it.status else {})}
            for suffix, data in files.items():
                with open(f"{base}.{suffix}", "wb") as file:
                    file.write(data)


def pack(folder, paths):
    for path in paths or lists():
        (head, found), suffix = read(path), suffix_of(path)
        there = {it.name for it in found if os.path.exists(f"{folder}/{it.name}.{suffix}")}
        new = [stored_at(f"{folder}/{it.name}", it.name, suffix) if it.name in there else it for it in found]
        if new != found:
            write(path, head, new)
            print(f"{os.path.relpath(path, TOP)}: {', '.join(it.name for it, old in zip(new, found) if it != old)}")


def add(paths):
    for path in paths:
        base = os.path.abspath(path).removesuffix(".psci")
        if not os.path.exists(f"{base}.psci"):
            raise Wrong(f"{path}: there is no such script")
        if base.startswith(f"{TOP}/examples/"):
            raise Wrong(f"{path}: what is in examples/ stays a file")
        it = stored_at(base, "/".join(base.split("/")[-2:]))
        print(f"{it.name}: {os.path.relpath(append(it), TOP)}")
        for suffix in ("psci", "out", "err", "status"):
            if os.path.exists(f"{base}.{suffix}"):
                os.remove(f"{base}.{suffix}")
        if not os.listdir(os.path.dirname(base)):
            os.rmdir(os.path.dirname(base))


def main(words):
    if words[:1] == ["print"] and len(words) == 2:
        sys.stdout.buffer.write(script(words[1]).script)
    elif words[:1] == ["unpack"] and words[1:]:
        unpack(words[1], words[2:])
    elif words[:1] == ["pack"] and words[1:]:
        pack(words[1], words[2:])
    elif words[:1] == ["add"] and words[1:]:
        add(words[1:])
    else:
        sys.exit(__doc__)


if __name__ == "__main__":
    try:
        main(sys.argv[1:])
    except Wrong as wrong:
        sys.exit(f"stored: {wrong}")
