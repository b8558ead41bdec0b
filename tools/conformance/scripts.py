"""The scripts of tools/oracle as modules, whose names have hyphens."""
import importlib.util
from pathlib import Path

ORACLE = Path(__file__).resolve().parents[1] / "oracle"


def module(name):
    """The script of this name. What it imports has to be on the path."""
    spec = importlib.util.spec_from_file_location(name.replace("-", "_"), ORACLE / f"{name}.py")
    made = importlib.util.module_from_spec(spec)
    spec.loader.exec_module(made)
    return made
