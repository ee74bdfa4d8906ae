"""How the modules of an archive are loaded.

Python's importer of archives compiles a module to say in which file it stands, which each import asks, and then once
more to run it. That was a third of the time of a short run.
"""
from __future__ import annotations

import os
import sys
import zipimport


class _Importer(zipimport.zipimporter):
    """Python's importer, which compiles a module once."""

    def get_filename(self, fullname: str) -> str:
        """The file of the module, as Python names it."""
        name = os.path.join(self.archive, self.prefix + fullname.rpartition(".")[2])
        return os.path.join(name, "__init__.py") if self.is_package(fullname) else name + ".py"


def install() -> None:
    """Has modules that are loaded from now on compiled once."""
    sys.path_hooks.insert(0, _Importer)  # type: ignore[arg-type]  # typeshed knows no importer of archives as a finder
    sys.path_importer_cache.clear()
