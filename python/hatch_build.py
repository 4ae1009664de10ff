"""Puts the program and the library of prebuilt/ into the wheel, on the machines for which they are."""

import platform
import sys
from pathlib import Path
from typing import Any

from hatchling.builders.hooks.plugin.interface import BuildHookInterface

FILES = {"tigercanon": "tigercanon/bin/tigercanon", "libtigercanon.so.1": "tigercanon/libtigercanon.so.1"}


class Prebuilt(BuildHookInterface):
    def initialize(self, version: str, build_data: dict[str, Any]) -> None:
        prebuilt = Path(self.root).parent / "prebuilt"
        if sys.platform == "linux" and platform.machine() == "x86_64" and all((prebuilt / name).is_file() for name in FILES):
            build_data["force_include"].update({str(prebuilt / name): place for name, place in FILES.items()})
            build_data.update(pure_python=False, tag="py3-none-linux_x86_64")
