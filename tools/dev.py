"""Stands for the package dev at the top of the repository, so that the scripts in this folder find it. rt accepts no link here."""

import importlib
import sys
from pathlib import Path

sys.path.insert(0, str(Path(__file__).resolve().parents[1]))
del sys.modules[__name__]
sys.modules[__name__] = importlib.import_module(__name__)
