"""Each script that starts a module of `tools/house` starts one that is there, and leaves no
compiled file."""

from __future__ import annotations

import os
import re
import subprocess
import unittest

from fixture import ROOT
from house.files import read

TOOLS = os.path.join(ROOT, "tools")
STARTER = """#!/usr/bin/env -S python3 -B
import runpy

runpy.run_module("house.{name}", run_name="__main__", alter_sys=True)
"""


class StartersTest(unittest.TestCase):
    def setUp(self) -> None:
        paths = {it: os.path.join(TOOLS, it) for it in os.listdir(TOOLS)}
        self.files = {name: read(it) for name, it in paths.items() if os.path.isfile(it)}
        self.starters = {it: text for it, text in self.files.items() if "run_module" in text}

    def test_each_starts_the_module_of_its_name(self) -> None:
        self.assertIn("believe", self.starters)
        for name, text in self.starters.items():
            self.assertEqual(text, STARTER.format(name=name), name)
            self.assertIn("def main(", read(os.path.join(TOOLS, "house", f"{name}.py")), name)

    def test_each_module_that_has_a_script_is_started(self) -> None:
        modules = {it[:-3] for it in os.listdir(f"{TOOLS}/house") if it.endswith(".py")}
        scripts = {it for it in self.files if os.access(f"{TOOLS}/{it}", os.X_OK)}
        self.assertEqual({*modules} & scripts, set(self.starters))

    def test_a_script_gives_its_arguments_and_the_exit_status(self) -> None:
        environment = {it: text for it, text in os.environ.items() if "BYTECODE" not in it}
        words = [os.path.join(TOOLS, "believe"), "--what"]
        ran = subprocess.run(words, capture_output=True, text=True, env=environment)
        self.assertEqual((ran.returncode, ran.stdout), (2, ""))
        self.assertTrue(re.match("Prints which definitions", ran.stderr))
        self.assertFalse(os.path.exists(f"{TOOLS}/house/__pycache__"))
