"""A tool as a module, for the tools and the tests that use another's functions."""
import importlib.machinery
import importlib.util
import pathlib
import sys

ROOT = pathlib.Path(__file__).resolve().parent.parent


def load_tool(name, folder="tools"):
    """The tool of that name, or with the folder tests the test."""
    sys.dont_write_bytecode = True
    loader = importlib.machinery.SourceFileLoader(name, str(ROOT / folder / name))
    module = importlib.util.module_from_spec(importlib.util.spec_from_loader(name, loader))
    loader.exec_module(module)
    return module


def load_recompute():
    """tools/recompute with the paper's constants read."""
    module = load_tool("recompute")
    module.load()
    return module
