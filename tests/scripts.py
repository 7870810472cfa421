"""Scripts of this folder as modules: some names of files are none that `import` takes, or are also those of the model's."""

import importlib.util
import sys
from pathlib import Path
from types import ModuleType


def script(name: str) -> ModuleType:
    """The script of this name, without its ending."""
    spec = importlib.util.spec_from_file_location(f"{name.replace('-', '_')}_script", Path(__file__).with_name(f"{name}.py"))
    module = importlib.util.module_from_spec(spec)
    sys.modules[spec.name] = module  # where dataclasses look for it
    spec.loader.exec_module(module)
    return module
