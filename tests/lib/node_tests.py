"""The tests of files NAME.test.mjs, which node runs, for pytest (conftest.py)."""
import os
import re
import shutil
import subprocess

import pytest

# Each call of `test` or `scenario` at the start of a line is a test, and each of `it` within a `describe`.
NAME = re.compile(r"^(?:(?:test|scenario)|  it)\('([^']+)'", re.MULTILINE)


class NodeFile(pytest.File):
    """A file of tests for node. `node --test FILE` runs them too. `find_program()` returns the path of a bayeuxd."""

    def __init__(self, *, find_program, **how):
        super().__init__(**how)
        self.find_program = find_program
        self.text = self.path.read_text(encoding="utf-8")

    def collect(self):
        for name in NAME.findall(self.text):
            yield NodeTest.from_parent(self, name=name)


class NodeTest(pytest.Item):
    """A test of a file for node, which runs it alone."""

    def runtest(self):
        if not shutil.which("node"):
            pytest.skip("there is no node")
        pattern = re.sub(r"[^\w ]", r"\\\g<0>", self.name)
        args = ["node", "--test-reporter=tap", f"--test-name-pattern=^{pattern}$", self.path]
        # Debian's packages, if node is another one.
        env = {**os.environ, "NODE_PATH": f"{os.environ.get('NODE_PATH', '')}:/usr/share/nodejs"}
        if "process.env.BAYEUXD" in self.parent.text:
            env["BAYEUXD"] = os.path.abspath(self.parent.find_program())
        result = subprocess.run(args, cwd=self.config.rootpath, env=env, capture_output=True, text=True, check=False)
        found = re.search(rf"^ *ok \d+ - {pattern}(?: # SKIP (.*))?$", result.stdout, re.MULTILINE)
        if result.returncode or not found:
            failure = re.search(r"^ *not ok .*?^ *\.\.\.$", result.stdout, re.MULTILINE | re.DOTALL)
            raise NodeFailed(failure[0] if failure else result.stdout + result.stderr)
        if found[1]:
            pytest.skip(f"node skips it: {found[1]}")

    def repr_failure(self, excinfo, style=None):
        return str(excinfo.value) if isinstance(excinfo.value, NodeFailed) else super().repr_failure(excinfo, style)

    def reportinfo(self):
        return self.path, None, self.name


class NodeFailed(Exception):
    """What node prints of a test that failed."""
