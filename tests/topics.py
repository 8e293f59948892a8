"""The topics of the tests: the modules in the folders beside this file, and their TOPICS, that have a table or
a function of a certain name. In breaks.txt each has the files and folders whose change it is the first to notice."""

import re
from functools import cache
from glob import glob
from importlib import import_module
from pathlib import Path
from types import ModuleType

from computed.batches import Topic

FOLDER = Path(__file__).resolve().parent
PROGRAM = str(FOLDER.parent / "crates" / "krbfile" / "out" / "krbfile")


@cache
def modules() -> dict[str, ModuleType]:
    """Returns the modules, by name."""
    paths = sorted(FOLDER.glob("*/*.py"))
    return {path.stem: import_module(f"{path.parent.name}.{path.stem}") for path in paths}


@cache
def topics(*those: str) -> dict[str, ModuleType | Topic]:
    """Returns the topics, by name."""
    listed = {topic.name: topic for module in modules().values() for topic in getattr(module, "TOPICS", ())}
    found = {**modules(), **listed}
    return {name: topic for name, topic in found.items() if any(hasattr(topic, each) for each in those)}


@cache
def breaks() -> dict[str, tuple[str, ...]]:
    """Returns for each topic the path of its module, and those in the row of that."""
    rows = dict(re.findall(r"^(\w+): (.*(?:\n .*)*)", Path(FOLDER, "breaks.txt").read_text("utf-8"), re.MULTILINE))
    found = {name: name for name in topics("CASES", "check") if name in modules()}
    found |= {topic.name: name for name, module in modules().items() for topic in getattr(module, "TOPICS", ())}
    return {topic: (f"tests/{modules()[name].__name__.replace('.', '/')}.py", *rows.get(name, "").split())
            for topic, name in found.items()}


@cache
def parts(name: str) -> list[str]:
    """Returns the files and folders of a path in breaks.txt."""
    found = glob(name, root_dir=FOLDER.parent)
    crates = [it for it in found if re.fullmatch(r"crates/\w+", it)]
    return [it for it in found if it not in crates] + [f"{it}/{part}" for it in crates for part in ("src", "specs")]


def of_change(path: str) -> list[str]:
    """Returns the topics that a change of a file, or in a folder, can break, by its path below the repository."""
    return [topic for topic, names in breaks().items() if any(
        path == it or path.startswith(f"{it}/") or it.startswith(f"{path}/") for name in names for it in parts(name))]
