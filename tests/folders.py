"""What tests of scripts stand on that read and write folders."""
from __future__ import annotations

import contextlib
import io
import os
import tempfile
import unittest
from types import ModuleType
from typing import Any


def read(*names: str) -> str:
    with open(os.path.join(*names), encoding='utf-8', newline='') as file:
        return file.read()


class InFolder(unittest.TestCase):
    def setUp(self) -> None:
        folder = tempfile.TemporaryDirectory()
        self.addCleanup(folder.cleanup)
        self.folder = folder.name
        self.net = os.path.join(self.folder, 'net')

    def call(self, script: ModuleType, *words: str) -> tuple[Any, str]:
        """The status of a script, and what it says on standard error."""
        said = io.StringIO()
        with contextlib.redirect_stderr(said):
            try:
                status = script.main(words)
            except SystemExit as ended:
                status = ended.code
        return status, said.getvalue()
