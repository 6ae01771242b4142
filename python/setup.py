"""What pyproject.toml cannot say: a wheel that has the program has its command `chtab` too."""
from pathlib import Path

from setuptools import setup

HAS_PROGRAM = (Path(__file__).resolve().parent / "chtab" / "bin" / "program").is_file()

setup(scripts=["command/chtab"] if HAS_PROGRAM else [])
