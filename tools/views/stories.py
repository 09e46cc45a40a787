"""The scripts that the page of `./psci try` offers: examples/, and the stories of docs/compare/PEERS.md."""
import glob
import os
import re

from .faults import TOP


def found(path=None):
    """Groups of scripts, each with its title, its text, and what to look at; that of this file comes first."""
    yours = [{"group": "yours", "scripts": [script(path, os.path.basename(path))]}] if path else []
    return [*yours, {"group": "examples", "scripts": [script(path) for path in paths("examples/*.psci")]},
            {"group": "stories of other firmware", "scripts": peers()},
            {"group": "Linux", "scripts": [script(f"{TOP}/examples/linux/{name}.psci")
                                           for name in ("boot", "hotplug")]}]


def paths(pattern):
    return sorted(glob.glob(f"{TOP}/{pattern}"))


def text_of(path):
    with open(path, encoding="utf-8") as file:
        return file.read()


def script(path, title=None, story=""):
    name = os.path.basename(path).rpartition(".")[0]
    return {"title": title or name.replace("-", " "), "text": text_of(path), "story": story}


def peers():
    """The stories of docs/compare/PEERS.md, each with its script."""
    text = text_of(f"{TOP}/docs/compare/PEERS.md")
    chapters = re.findall(r"^### (\d+\. [^\n]*): `([a-z-]+)`\n\n(.*?)\n\n", text, re.M | re.S)
    return [script(f"{TOP}/examples/peers/{name}.psci", title, plain(story))
            for title, name, story in chapters]


def plain(text):
    """The points of a story as lines, without their marks."""
    lines = [line.removeprefix("- ") for line in re.sub(r"\n  +", " ", text).splitlines()]
    return re.sub(r"\[([^\]]*)\]\([^)]*\)", r"\1", "\n".join(lines)).replace("`", "")
