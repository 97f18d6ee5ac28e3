"""The script `office`, for scripts that need what it knows."""
import importlib.machinery
import importlib.util
import pathlib

PATH = pathlib.Path(__file__).resolve().parent.parent / "office"


def load():
    """The script as a module, without running it."""
    loader = importlib.machinery.SourceFileLoader("office", str(PATH))
    found = importlib.util.module_from_spec(importlib.util.spec_from_loader("office", loader))
    loader.exec_module(found)
    return found
