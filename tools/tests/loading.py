"""Loads a tool that has no ending as a module."""
import importlib.machinery
import importlib.util
import pathlib
import sys
import types

TOOLS = pathlib.Path(__file__).resolve().parents[1]
sys.dont_write_bytecode = True
sys.path.insert(0, str(TOOLS))


def tool(name: str) -> types.ModuleType:
    loader = importlib.machinery.SourceFileLoader(f"tool_{name}", str(TOOLS / name))
    module = importlib.util.module_from_spec(importlib.util.spec_from_loader(loader.name, loader))
    # (dataclasses look the module up)
    sys.modules[loader.name] = module
    loader.exec_module(module)
    return module
