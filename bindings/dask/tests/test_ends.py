"""How a command ends: its output, and its errors."""
from __future__ import annotations

import asyncio
import os
import subprocess
import sys
import unittest
from unittest import mock

import seen
import sketch_engine
from common import said

PATIENCE = 120


class Ends(unittest.TestCase):
    def ended(self, output):
        """Returns the exit status and the error output of a command that prints a result to a file."""
        code = "import sketch_engine, sys; sys.exit(sketch_engine.run('job', lambda: {'a': 1}, print, True))"
        env = {**os.environ, "PYTHONPATH": os.pathsep.join(sys.path), "PYTHONUNBUFFERED": ""}
        done = subprocess.run([sys.executable, "-c", code], stdout=output, stderr=subprocess.PIPE, text=True, env=env,
                              timeout=PATIENCE, check=False)
        return done.returncode, done.stderr

    def test_a_reader_that_has_enough(self):
        reader, writer = os.pipe()
        os.close(reader)
        with open(writer, "wb") as output:
            self.assertEqual(self.ended(output), (1, ""))

    def test_a_disk_that_is_full(self):
        with open("/dev/full", "wb") as output:
            self.assertEqual(self.ended(output), (1, "job: [Errno 28] No space left on device\n"))

    def test_a_package_that_is_not_there(self):
        with mock.patch.dict(sys.modules, {"cryptography": None}):
            status, out, errors = said(seen.main, __file__, sketch_engine.__file__)
        self.assertEqual((status, out), (1, ""))
        self.assertRegex(errors, "^seen.py: not installed here or on a worker: .*`cryptography`.*\n$")

    def test_a_scheduler_that_does_not_answer(self):
        class Older(Exception):
            """A stand-in for Python 3.10's exception, which is not an OSError."""

        with mock.patch.object(asyncio, "TimeoutError", Older):
            job = mock.Mock(side_effect=Older("no workers"))
            status, out, errors = said(lambda words: sketch_engine.run("job", job, print, True))
        self.assertEqual((status, out, errors), (1, "", "job: the scheduler or its workers did not answer in time: no workers\n"))


if __name__ == "__main__":
    unittest.main()
