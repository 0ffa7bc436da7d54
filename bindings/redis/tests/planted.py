"""Wrong builds: each has a mistake that the tests must find."""
import os
import shutil

import commands
import damage
import replicas
import stored

BINDINGS = os.path.dirname(os.path.dirname(os.path.dirname(os.path.abspath(__file__))))


class Silent:
    """Counts tests without a message, in place of those of a wrong build."""

    def __init__(self, tests, module):
        self.tests, self.module, self.failed = tests, module, []

    def check(self, name, holds, said=""):
        if not holds:
            self.failed.append(name)

    def server(self, name, module=None, **settings):
        return self.tests.server(f"planted {name}", module or self.module, **settings)

    def __getattr__(self, name):
        return getattr(self.tests, name)


def without_key(tests):
    stored.reloads(tests)


def not_replicated(tests):
    master, replica = replicas.pair(tests, "followed")
    with master, replica, master.client() as client, replica.client() as other:
        replicas.same_place(client, other)
        client.done("BF.ADD", "f", "a")
        client.done("BF.ADD", "f", "b")
        replicas.same_place(client, other)
        tests.check("an add on the replica", other.done("BF.EXISTS", "f", "b") == 1)


def mistaken(tests):
    with tests.server("mistaken") as on, on.client() as client:
        damage.small(client)
        tests.check("a kind", "WRONGTYPE" in str(client("BF.ADD", "count", "a")))


def wrong_lines(tests):
    with tests.server("lines") as tests.main:
        commands.lines(tests)


def changed_sources(tests, name, file, right, mistake):
    """Copies the module's sources with a mistake in place of a text, which stands in its file once. Returns their folder."""
    folder = os.path.join(tests.work, "sources", name)
    shutil.copytree(f"{BINDINGS}/redis", f"{folder}/redis")
    shutil.copytree(f"{BINDINGS}/c/include", f"{folder}/c/include")
    path = f"{folder}/redis/src/{file}"
    with open(path, encoding="utf-8") as source:
        text = source.read()
    assert text.count(right) == 1, (file, right)
    with open(path, "w", encoding="utf-8") as source:
        source.write(text.replace(right, mistake))
    return f"{folder}/redis"


def wrong_builds(tests):
    """A state without the key of its table, an addition that is not replicated, a kind that is mistaken for another, lines that
    keep a carriage return, and lines that are taken for other items."""
    for name, file, right, mistake, group in [
        ("a state without its key", "states.c", "if (with_key && sketch->kind", "if (false && with_key && sketch->kind", without_key),
        ("an addition that is not replicated", "calls.c", "RedisModule_ReplicateVerbatim(call->ctx);", "", not_replicated),
        ("a mistaken kind", "calls.c", "if (kind != 0) return type == type_of(kind);", "(void)kind;", mistaken),
        ("a carriage return that is kept", "lines.c", "else if (feed > line && feed[-1] == '\\r') end--;", "", wrong_lines),
        ("marked lines that are missed", "items.c", "const uint8_t *at = text, *end = text + length;",
         "const uint8_t *at = text + length, *end = text + length;", wrong_lines),
    ]:
        wrong = Silent(tests, tests.build(f"with {name}", "-O1", changed_sources(tests, name, file, right, mistake)))
        try:
            group(wrong)
        except Exception as error:  # a wrong build may end so
            wrong.failed.append(error)
        tests.check(f"{name}: found", wrong.failed)
