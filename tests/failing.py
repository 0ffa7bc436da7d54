"""Runs programs with allocations and streams that fail, over the library of `memory/`."""
import os
import subprocess

import checks

# The variable that chooses the key of the tables of `datasketches_cli` and of the trials.
KEY = "DATASKETCHES_TABLE_KEY"


class Failing(checks.Checks):
    """Checks of a program whose allocations and streams fail where a check says so. `work` is a folder for the script's files."""

    def __init__(self, work):
        super().__init__(work)
        self.library = checks.preloaded(work)

    def run_with(self, command, lines, refused_at=None, key="plain", **settings):
        """Runs a command over lines. They are in a file, so that each run reads them by the same calls. With None for the key, tables
        hash under random keys. Returns the exit status, both outputs, and the library's report if it was loaded."""
        env = {"PATH": "/usr/bin:/bin"}
        if key is not None:
            env[KEY] = key
        report, name = [os.path.join(self.work, it) for it in ("report", "lines")]
        with open(name, "wb") as file:
            file.write(lines)
        if refused_at is not None:
            settings["REFUSED_AT"] = refused_at
        if settings:
            env.update({name: str(value) for name, value in settings.items()})
            env.update(LD_PRELOAD=self.library, REFUSED_REPORT=report)
        with open(name, "rb") as file:
            ran = subprocess.run(command, stdin=file, capture_output=True, env=env, timeout=60)
        numbers = None
        if settings:
            with open(report) as file:
                numbers = [int(word) for word in file.read().split()]
        return ran.returncode, ran.stdout, ran.stderr, numbers
