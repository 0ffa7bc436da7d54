"""The jobs over three workers and twelve parts, compared with exact counts; workers that die; damaged images."""
from __future__ import annotations

import collections
import contextlib
import gzip
import http.client
import io
import json
import os
import random
import signal
import socket
import ssl
import subprocess
import sys
import tempfile
import time
import unittest
from pathlib import Path
from unittest import mock

import dask
import datasketches_rattle as ds
import distributed
import heavy
import seen
import sketch_engine as engine
import sketch_parts
import traffic
from common import said, weight_outside, write, zipf
from dask.delayed import delayed
from sketch_parts import Heavy, Seen, Traffic, sketch_part

WORKERS, PARTS, SIZE, PATIENCE = 3, 12, 64, 120
WORDS = zipf(PARTS * 4000, 3000, 1)
WEIGHTS = collections.Counter(WORDS)
KEY = bytes(range(16))
BUDGET = 24  # half the sample size of a sketch of 64 slots


def setUpModule():
    """Starts three workers for all tests, and writes the stream to a file with a few words a line."""
    global CLIENT, FOLDER, STREAM
    folder = tempfile.TemporaryDirectory()
    unittest.addModuleCleanup(folder.cleanup)
    FOLDER = folder.name
    STREAM = write(FOLDER, "stream.txt", "".join(" ".join(WORDS[at : at + 5]) + "\n" for at in range(0, len(WORDS), 5)))
    CLIENT = unittest.enterModuleContext(engine.connect(WORKERS, None))
    unittest.enterModuleContext(dask.config.set({  # for the commands, which connect to these workers
        "distributed.comm.tls.ca-file": CLIENT.security.tls_ca_file,
        "distributed.comm.tls.client": {"cert": CLIENT.security.tls_client_cert, "key": CLIENT.security.tls_client_key}}))


def watched_sketch(shape, part, log, gate):
    """Returns a part's image, and logs the begin of the work. The first parts, one a worker, run at once. The others wait until
    the file `gate` exists."""
    with open(log, "a+", encoding="utf-8") as file:
        file.write(f"{part.begin}\n")
        file.flush()
        file.seek(0)
        begun = len(file.readlines())
    until = time.monotonic() + PATIENCE
    while begun > WORKERS and not os.path.exists(gate) and time.monotonic() < until:
        time.sleep(0.05)
    return sketch_part(shape, part)


def damaged(image):
    """Returns the image with another family in its preamble."""
    return image[:2] + bytes([image[2] ^ 0xFF]) + image[3:]


def listens_on(process):
    """Yields the addresses and ports, in hexadecimal, that a process listens on."""
    sockets = set()
    for each in os.listdir(f"/proc/{process}/fd"):
        with contextlib.suppress(OSError):
            sockets.add(os.readlink(f"/proc/{process}/fd/{each}"))
    for table in ("tcp", "tcp6"):
        with open(f"/proc/{process}/net/{table}", encoding="ascii") as file:
            for words in map(str.split, file.readlines()[1:]):
                if words[3] == "0A" and f"socket:[{words[9]}]" in sockets:
                    yield words[1].split(":")


def serves_no_pages(test, port):
    """Checks that a port of the loopback address serves none of Dask's pages."""
    for page in ("/", "/health", "/metrics", "/info/main/workers.html", "/json/identity.json"):
        pages = http.client.HTTPConnection("127.0.0.1", port)
        pages.request("GET", page)
        test.assertEqual(pages.getresponse().status, 404, page)
        pages.close()


class Workers(unittest.TestCase):
    def test_they_take_their_own_client_alone(self):
        context = ssl.SSLContext(ssl.PROTOCOL_TLS_CLIENT)
        context.check_hostname, context.verify_mode = False, ssl.CERT_NONE
        workers = CLIENT.scheduler_info()["workers"]
        secured = {CLIENT.scheduler.address, *workers, *(worker["nanny"] for worker in workers.values())}
        secured = {int(address.removeprefix("tls://127.0.0.1:")) for address in secured}
        self.assertEqual(len(secured), 2 * WORKERS + 1)
        heard = [each for process in (os.getpid(), *CLIENT.run(os.getpid).values()) for each in listens_on(process)]
        self.assertEqual({address for address, _ in heard}, {"0100007F"}, "127.0.0.1, as x86-64 writes it")
        ports = {int(port, 16) for _, port in heard}
        self.assertLess(secured, ports)
        for port in ports:
            if port in secured:
                with self.assertRaises(ssl.SSLError) as refused, socket.create_connection(("127.0.0.1", port)) as plain, \
                        context.wrap_socket(plain) as stranger:
                    stranger.recv(1)
                self.assertIn("CERTIFICATE_REQUIRED", refused.exception.reason)
            else:
                serves_no_pages(self, port)
        with self.assertRaises(OSError):
            distributed.Client(CLIENT.scheduler.address, security=distributed.Security.temporary(), timeout=PATIENCE)
        with mock.patch.object(engine, "PATIENCE", 2):
            status, out, errors = said(heavy.main, STREAM, "--scheduler", CLIENT.scheduler.address.replace("tls", "tcp"))
        self.assertEqual((status, out), (1, ""))
        self.assertRegex(errors, "^heavy.py: .*127.0.0.1.*\n$")


class Threads(unittest.TestCase):
    def test_they_need_no_dask(self):
        code = "import sys; {}; import heavy, traffic; sys.exit({}.main(sys.argv[1:]))"
        hidden = "sys.modules.update(dask=None, distributed=None)"
        for command, *words in (("heavy", "--words"), ("heavy",), ("traffic", "--words", "--ask", WORDS[0]),
                                ("heavy", "--column", "1", "--no-header"), ("heavy", "-f", "1")):
            done = subprocess.run([sys.executable, "-c", code.format(hidden, command), *words, STREAM, "--json"], text=True,
                                  capture_output=True, env={**os.environ, "PYTHONPATH": os.pathsep.join(sys.path)}, check=False)
            self.assertEqual((done.returncode, done.stderr), (0, ""))
            self.assertEqual(json.loads(done.stdout)["total"], len(WORDS) if "--words" in words else len(WORDS) // 5)
        with mock.patch.dict(sys.modules, {"dask": None}):
            status, out, errors = said(seen.main, STREAM, STREAM)
        self.assertEqual((status, out), (1, ""))
        self.assertRegex(errors, "^seen.py: not installed here or on a worker: .*dask.*\n$")

    def test_the_same_key_gives_the_result_of_workers(self):
        for fan_in in ("2", "3", "5", "12"):
            words = ["--words", STREAM, "--size", str(SIZE), "--parts", str(PARTS), "--key", KEY.hex(), "--fan-in", fan_in]
            words.append("--json")
            found = [said(heavy.main, *words, *more) for more in (["--scheduler", CLIENT.scheduler.address], ["--workers", "1"],
                                                                  ["--workers", "3"], [])]
            self.assertEqual((found[0][0], found[0][2]), (0, ""))
            self.assertEqual(found[1:], found[:1] * 3)

    def test_few_images_are_kept(self):
        for count in (1, 2, 5, 9, 10, 100):
            shape, most = Traffic(2, 50), 0
            tree, images = engine.Tree(shape, 3), []
            for number in range(count):
                sketch = shape.empty()
                sketch.update(f"item {number}", number)
                images.append(bytes(sketch))
                tree.add(images[-1])
                most = max(most, sum(map(len, tree.levels)))
            self.assertLessEqual(most, 2 * 5)
            self.assertEqual(tree.image(), sketch_parts.merge_images(shape, images))

    def test_an_error_ends_the_work(self):
        path = write(FOLDER, "late.txt", b"good\n" * 50 + b"b\xe4d\n" + b"good\n" * 50_000)
        with mock.patch.object(engine, "sketch_part", side_effect=sketch_part) as made:
            status, out, errors = said(heavy.main, path, "--parts", "1000", "--workers", "2")
        self.assertEqual((status, out, errors), (1, "", f"heavy.py: {path}, line at byte 250: not UTF-8\n"))
        self.assertLess(made.call_count, 20)

    def test_lines_and_words_are_counted_as_by_processes(self):
        for words, weights in (([], collections.Counter(Path(STREAM).read_text("utf-8").splitlines())), (["--words"], WEIGHTS)):
            status, out, errors = said(heavy.main, STREAM, *words, "--size", str(SIZE), "--parts", str(PARTS), "--workers", "3",
                                       "--json")
            self.assertEqual((status, errors), (0, ""))
            found = json.loads(out)
            self.assertEqual((found["total"], found["parts"]), (sum(weights.values()), PARTS))
            for row in found["items"]:
                self.assertLessEqual(row["lower"], weights[row["item"]])
                self.assertLessEqual(weights[row["item"]], row["upper"])


class Tests(unittest.TestCase):
    def here(self, command, *words):
        """Runs a command on the workers of all tests. Returns its exit status, its output and its error output."""
        return said(command, *words, "--scheduler", CLIENT.scheduler.address, "--parts", str(PARTS))

    def found(self, command, *words):
        """Returns the result of a command."""
        status, out, errors = self.here(command, *words, "--json")
        self.assertEqual(status, 0, errors)
        return json.loads(out)

    def refused(self, command, *words):
        """Returns the error, which is one line, of a command that has no result."""
        status, out, errors = self.here(command, *words)
        self.assertEqual((status, out, errors.count("\n")), (1, "", 1))
        return errors.removesuffix("\n")

    def check(self, image):
        """Checks all guarantees of frequent items on the sketch of the whole stream."""
        sketch = Heavy(SIZE).read(image)
        self.assertEqual(sketch.total_weight, len(WORDS))
        self.assertGreater(sketch.maximum_error, 0)
        for word, weight in WEIGHTS.items():
            low, _, high = sketch.bounds(word)
            self.assertTrue(low <= weight <= high, word)
        for threshold in (0, 300):
            least = max(threshold, sketch.maximum_error)
            above = {word for word, weight in WEIGHTS.items() if weight > least}
            self.assertTrue(above)
            self.assertLessEqual(above, {row[0] for row in sketch.rows(threshold)})
        for top in (1, 10, BUDGET - 1, BUDGET):
            self.assertLessEqual((BUDGET - top) * sketch.maximum_error, weight_outside(WEIGHTS, top))


class Heaviest(Tests):
    def test_each_shape_of_the_tree(self):
        parts = engine.cut_files([STREAM], PARTS, words=True)
        self.assertEqual(len(parts), PARTS)
        images = engine.sketches(Heavy(SIZE), parts)
        trees = [engine.merged(Heavy(SIZE), images, fan_in) for fan_in in (2, PARTS)]
        for image in CLIENT.gather(CLIENT.compute(trees)):
            self.check(image)

    def test_the_same_key_gives_the_same_result(self):
        parts = engine.cut_files([STREAM], PARTS, words=True)
        shape = Heavy(SIZE, key=KEY)
        trees = [engine.merged(shape, engine.sketches(shape, parts), fan_in) for fan_in in (3, 3)]
        one, other = CLIENT.gather(CLIENT.compute(trees))
        self.assertEqual(one, other)
        self.check(one)
        words = (heavy.main, "--words", STREAM, "--size", str(SIZE), "--key", KEY.hex(), "--fan-in", "3")
        found = self.found(*words)
        self.assertEqual(found, self.found(*words))
        rows = shape.read(one).rows()
        self.assertEqual([tuple(each.values()) for each in found["items"]], rows[:20])
        for key in ("", KEY.hex()[1:], KEY.hex() + "0", " " + KEY.hex()[1:], "x" * 32):
            with self.assertRaises(SystemExit) as refused, contextlib.redirect_stderr(io.StringIO()):
                heavy.main([STREAM, "--key", key])
            self.assertEqual(refused.exception.code, 2)

    def test_a_worker_that_dies_is_made_up_for(self):
        shape, log, gate = Heavy(SIZE), os.path.join(FOLDER, "begun"), os.path.join(FOLDER, "gate")
        watched = delayed(watched_sketch, pure=False)
        images = [watched(shape, part, log, gate) for part in engine.cut_files([STREAM], PARTS, words=True)]
        keys, ids = {image.key for image in images}, CLIENT.run(os.getpid)
        future = CLIENT.compute(engine.merged(shape, images, PARTS))
        until = time.monotonic() + PATIENCE
        while not (held := [worker for worker, there in CLIENT.has_what().items() if keys & set(there)]):
            self.assertLess(time.monotonic(), until, "no worker has an image")
            time.sleep(0.02)
        dead = min(held)
        os.kill(ids[dead], signal.SIGKILL)
        write(FOLDER, "gate", "")
        self.check(future.result(timeout=PATIENCE))
        with open(log, encoding="utf-8") as file:
            begun = collections.Counter(file.readlines())
        self.assertEqual((len(begun), max(begun.values()) > 1), (PARTS, True), "what the worker had is made again")
        CLIENT.wait_for_workers(WORKERS, timeout=PATIENCE)
        self.assertNotIn(ids[dead], CLIENT.run(os.getpid).values())

    def test_a_scheduler_that_runs(self):
        folder = os.path.join(FOLDER, "scheduler")
        os.mkdir(folder)
        told, env = os.path.join(folder, "file"), {**os.environ, "PYTHONPATH": os.path.dirname(os.path.dirname(ds.__file__))}
        words = ["--scheduler-file", told, "--host", "127.0.0.1", "--dashboard-address", "127.0.0.1:0", "--no-dashboard"]
        with contextlib.ExitStack() as stack:
            for command in (["dask-scheduler", "--port", "0"], ["dask-worker", "--nthreads", "1", "--local-directory", folder]):
                process = subprocess.Popen([*command, *words], cwd="/", env=env, stderr=subprocess.DEVNULL)
                stack.callback(process.kill)
                stack.callback(process.wait, timeout=PATIENCE)
                stack.callback(process.terminate)
                until = time.monotonic() + PATIENCE
                while not (os.path.exists(told) and os.path.getsize(told)):
                    self.assertLess(time.monotonic(), until, "there is no scheduler")
                    time.sleep(0.05)
            with open(told, encoding="utf-8") as file:
                address = json.load(file)["address"]
            status, out, errors = said(heavy.main, "--words", STREAM, "--scheduler", address, "--json")
        self.assertEqual(status, 0, errors)
        self.assertEqual(json.loads(out)["total"], len(WORDS))

    def test_a_damaged_image_is_refused(self):
        sketches = engine.sketches

        def with_damage(*arguments):
            images = sketches(*arguments)
            return images[:5] + [delayed(damaged)(images[5])] + images[6:]

        with mock.patch.object(engine, "sketches", with_damage):
            self.assertEqual(self.refused(heavy.main, "--words", STREAM), "heavy.py: BadFamily: wrong family")
            self.assertEqual(self.refused(seen.main, STREAM, STREAM), "seen.py: BadFamily: wrong family")
            self.assertEqual(self.refused(traffic.main, STREAM, "--ask", "x"), "traffic.py: BadFamily: wrong family")
        image = CLIENT.compute(engine.sketches(Heavy(SIZE), engine.cut_files([STREAM], 1))[0]).result()
        for length in (0, 7, len(image) - 1):
            broken = engine.merged(Heavy(SIZE), [delayed(image), delayed(image[:length])], 2)
            with self.assertRaises(ds.SketchError) as refused:
                CLIENT.compute(broken).result()
            self.assertEqual((refused.exception.kind, refused.exception.fault), ("InvalidData", "InsufficientData"))

    def test_the_answer(self):
        found = self.found(heavy.main, "--words", STREAM, "--size", str(SIZE), "--top", "5", "--threshold", "300")
        self.assertEqual((found["total"], found["parts"], found["budget"], len(found["items"])), (len(WORDS), PARTS, BUDGET, 5))
        told = {each["item"]: each for each in found["items"]}
        for word, each in told.items():
            self.assertTrue(each["lower"] <= WEIGHTS[word] <= each["upper"])
            self.assertEqual(each["upper"] - each["lower"], found["error"])
        self.assertLessEqual({word for word, weight in WEIGHTS.items() if weight > found["complete_above"]}, set(told))
        self.assertGreater(found["more"], 0)

    def test_exact_where_there_is_room(self):
        path = write(FOLDER, "few.csv", "page,bytes\n" + "".join(f"p{n % 7},{n}\n" for n in range(100)))
        found = self.found(heavy.main, path, "--column", "page", "--weight", "bytes")
        exact = {f"p{n}": sum(range(n, 100, 7)) for n in range(7)}
        self.assertEqual({each["item"]: (each["lower"], each["upper"]) for each in found["items"]},
                         {item: (weight, weight) for item, weight in exact.items()})
        self.assertEqual((found["total"], found["error"], found["more"]), (4950, 0, 0))
        status, out, _ = self.here(heavy.main, path, "--column", "page")
        self.assertEqual((status, out.count("14"), out.count("15")), (0, 5, 2))
        equal = self.found(heavy.main, path, "--column", "page", "--threshold", "14")
        self.assertEqual({each["item"] for each in equal["items"]}, {"p0", "p1"}, "an item of 14 is not above 14")
        self.assertEqual(equal["complete_above"], 14)
        self.assertIn("a weight of 100 in ", out)
        self.assertIn("Each weight lies between its bounds, 0 apart, and no item above 0 is missing.", out)

    def test_what_is_no_input(self):
        bad = write(FOLDER, "bad.txt", b"good\n" * 3000 + b"b\xe4d\n")
        rows = write(FOLDER, "bad.csv", "page,bytes\n" + "a,1\n" * 5000 + "a,many\n")
        none = os.path.join(FOLDER, "missing")
        self.assertEqual(self.refused(heavy.main, STREAM, bad), f"heavy.py: {bad}, line at byte 15000: not UTF-8")
        self.assertEqual(self.refused(heavy.main, rows, "--column", "page", "--weight", "bytes"),
                         f"heavy.py: {rows}, line at byte 20011: the weight 'many' is no whole number from 0 to "
                         "18446744073709551615")
        self.assertEqual(self.refused(heavy.main, STREAM, none), f"heavy.py: {none}: No such file or directory")
        self.assertIn("MapSizeNotPowerOfTwo", self.refused(heavy.main, STREAM, "--size", "65"))
        heaviest = write(FOLDER, "heavy.csv", f"page,bytes\na,{2**64 - 1}\nb,1\n")
        self.assertIn("WeightOverflow", self.refused(heavy.main, heaviest, "--column", "page", "--weight", "bytes"))

    def test_an_error_comes_once(self):
        bad = write(FOLDER, "bad.txt", b"b\xe4d\n" * 1000)
        done = subprocess.run([sys.executable, heavy.__file__, bad, "--parts", "8", "--workers", "2"],
                              capture_output=True, text=True, timeout=2 * PATIENCE, check=False)
        self.assertEqual((done.returncode, done.stdout), (1, ""))
        self.assertRegex(done.stderr, rf"^heavy.py: {bad}, line at byte \d+: not UTF-8\n$")

    def test_a_file_that_changes(self):
        for shape in (Heavy(SIZE), Traffic(4, 500)):
            path = write(FOLDER, "grows.txt", "a\n" * 100)
            image = engine.merged(shape, engine.sketches(shape, engine.cut_files([path], PARTS)), 4)
            write(FOLDER, "grows.txt", "a\n" * 99)
            with self.assertRaisesRegex(sketch_parts.BadInput, "cut from 200 bytes of .*; read from 198 bytes of "):
                engine.answer(CLIENT, image)

    def test_compressed(self):
        path = write(FOLDER, "stream.txt.gz", gzip.compress(Path(STREAM).read_bytes()))
        found = self.found(heavy.main, "--words", path, STREAM, "--top", "1")
        (item, weight), = WEIGHTS.most_common(1)
        self.assertEqual((found["total"], found["items"][0]["item"]), (2 * len(WORDS), item))
        self.assertTrue(found["items"][0]["lower"] <= 2 * weight <= found["items"][0]["upper"])

    def test_nothing_to_count(self):
        empty = write(FOLDER, "empty.txt", "")
        found = self.found(heavy.main, empty, empty)
        self.assertEqual((found["total"], found["items"], found["parts"]), (0, [], 2))
        status, out, _ = self.here(heavy.main, empty)
        self.assertEqual((status, out.split("\n")[1]), (0, "no item has an upper bound above the threshold and the error"))

    def test_one_command_with_workers_of_its_own(self):
        done = subprocess.run([sys.executable, heavy.__file__, "--words", STREAM, "--workers", "2", "--top", "3"],
                              capture_output=True, text=True, timeout=2 * PATIENCE, cwd=FOLDER, check=False)
        self.assertEqual(done.returncode, 0, done.stderr)
        lines = done.stdout.split("\n")
        self.assertEqual(lines[0], f"a weight of {len(WORDS):,} in 1 part")
        self.assertEqual([line.split()[0] for line in lines[1:4]], [word for word, _ in WEIGHTS.most_common(3)])
        self.assertIn("█", lines[1])
        self.assertFalse(os.path.exists(os.path.join(FOLDER, "dask-worker-space")), "nothing is left where it ran")


class OfFields(Tests):
    """Jobs whose items are fields of lines."""

    def setUp(self):
        chance = random.Random(5)
        fields = [(chance.choice(WORDS), chance.choice(("x", "", "y z"))) for _ in range(6000)]
        self.lines = [",".join(pair) if n % 3 else pair[0] for n, pair in enumerate(fields)]
        text = "".join(line + chance.choice(("\n", "\r\n", "\n\n")) for line in self.lines)
        self.path = write(FOLDER, "fields.csv", text)
        self.packed = write(FOLDER, "fields.csv.gz", gzip.compress(text.encode()))
        self.items = {
            ("-f", "1", "-d", ","): collections.Counter(line.split(",")[0] for line in self.lines),
            ("-f", "2", "--delimiter", ","): collections.Counter(line.split(",")[1] for line in self.lines if "," in line),
            ("--field", "1"): collections.Counter(line.split()[0] for line in self.lines),
            ("--field", "2"): collections.Counter(line.split()[1] for line in self.lines if " " in line),
        }

    def test_exact_counts(self):
        for words, weights in self.items.items():
            found = self.found(heavy.main, self.path, self.packed, *words, "--top", "9999")
            self.assertEqual((found["total"], found["error"]), (2 * sum(weights.values()), 0))
            self.assertEqual({each["item"]: each["lower"] for each in found["items"]},
                             {item: 2 * weight for item, weight in weights.items()})
            few = self.found(heavy.main, self.path, *words, "--size", str(SIZE), "--top", "9999")
            for each in few["items"]:
                self.assertTrue(each["lower"] <= weights[each["item"]] <= each["upper"])
            missing = set(weights) - {each["item"] for each in few["items"]}
            self.assertTrue(all(weights[item] <= few["complete_above"] for item in missing))
            asked = [item for item, _ in weights.most_common(20)]
            told = self.found(traffic.main, self.path, *words, *(word for item in asked for word in ("--ask", item)))
            self.assertEqual(told["total"], sum(weights.values()))
            one = ds.CountMinSketch(7, 27183)
            for item, weight in weights.items():
                one.update(item, weight)
            self.assertEqual({each["key"]: each["estimate"] for each in told["keys"]}, {item: one[item] for item in asked})

    def test_weights_of_fields(self):
        chance = random.Random(7)
        rows = [(chance.choice(WORDS), chance.choice((0, 1, 7, 10**12))) for _ in range(3000)]
        table = write(FOLDER, "weighed.csv", "".join(f"{item},{weight:05}\n" for item, weight in rows) + "\n")
        spaced = write(FOLDER, "weighed.txt", "".join(f" {weight}\t{item} x\r\n" for item, weight in rows))
        wanted = collections.Counter()
        for item, weight in rows:
            wanted[item] += weight
        for words in ([table, "-d", ",", "-f", "1", "-w", "2"], [spaced, "-f", "2", "--weight-field", "1"]):
            found = self.found(heavy.main, *words, "--top", "9999", "--parts", "5")
            self.assertEqual((found["total"], found["error"]), (sum(wanted.values()), 0))
            self.assertEqual({each["item"]: each["lower"] for each in found["items"]}, {item: n for item, n in wanted.items() if n})
            asked = next(item for item in wanted)
            self.assertEqual(self.found(traffic.main, *words, "--ask", asked)["total"], sum(wanted.values()))
        lines = self.found(heavy.main, table, "-d", ",", "-w", "2", "--top", "1")
        self.assertTrue(lines["items"][0]["item"].endswith(",1000000000000"), lines)
        for line, said in (("a,\n", "the weight '' is"), ("a,-1\n", "the weight '-1' is"), ("a, 1\n", "the weight ' 1' is"),
                           ("a\n", "there is no field with the weight"), ("a,99999999999999999999\n", "the weight '999")):
            bad = write(FOLDER, "bad.csv", "a,1\n\n" + line)
            self.assertIn(f"bad.csv, line at byte 5: {said}", self.refused(heavy.main, bad, "-d", ",", "-f", "1", "-w", "2"))
        signed = write(FOLDER, "signed.csv", "a,-5\nb,3\n")
        found = self.found(traffic.main, signed, "--signed", "-d", ",", "-f", "1", "-w", "2", "--ask", "a")
        self.assertEqual([each["estimate"] for each in found["keys"]], [-5])

    def test_lines_of_items(self):
        table = write(FOLDER, "tabs.csv", 'a\\,1\n"b\tc",1\na\\,1\n')
        for words, wanted in ((["-d", ",", "-f", "1"], "# error 0 of 3\n2\t2\ta\\\n1\t1\t\"b\tc\"\n"),
                              (["--column", "1", "--no-header"], "# error 0 of 3\n2\t2\ta\\\\\n1\t1\tb\\tc\n")):
            with contextlib.redirect_stdout(io.StringIO()) as printed:
                self.assertEqual(heavy.main([table, *words, "--tsv"]), 0)
            self.assertEqual(printed.getvalue(), wanted)
            with contextlib.redirect_stdout(io.StringIO()) as printed:
                self.assertEqual(traffic.main([table, *words, "--tsv", "--ask", "x", "--ask", "a\\"]), 0)
            self.assertEqual(printed.getvalue(), f"# total 3\n0\tx\n2\t{wanted.splitlines()[1].split(chr(9))[2]}\n")

    def test_kept_lines(self):
        keys = write(FOLDER, "keys.csv", "1," + self.lines[1].split(",")[0] + "\nno key\n")
        folder = Path(FOLDER, "kept fields")
        found = self.found(seen.main, keys, self.path, "-d", ",", "-f", "1", "--key-field", "2", "--one-in", "1000000",
                           "--write", str(folder))
        wanted = {line for line in self.lines if line.split(",")[0] == self.lines[1].split(",")[0]}
        kept = "".join(path.read_text("utf-8") for path in sorted(folder.iterdir())).splitlines()
        self.assertLessEqual(wanted, set(kept))
        self.assertLess(len(kept), len([line for line in self.lines if line in wanted]) + 600)
        self.assertEqual(kept, [line for line in self.lines if line in set(kept)])
        self.assertEqual((found["keys"], found["files"]), (1, [{"file": self.path, "lines": 6000, "kept": len(kept)}]))

    def test_lines_without_the_field_are_not_kept(self):
        keys = write(FOLDER, "keys.csv", "1,x\n2,\n3,y z\n")
        for key in (["--key-field", "2"], ["--key-column", "2", "--no-header"]):
            found = self.found(seen.main, keys, self.path, "-f", "2", "-d", ",", *key)
            self.assertEqual((found["keys"], found["files"]), (3, [{"file": self.path, "lines": 6000, "kept": 4000}]))

    def test_what_is_no_field(self):
        bad = write(FOLDER, "bad.txt", b"a good\n" * 3000 + b"a b\xe4d\n")
        self.assertEqual(self.refused(heavy.main, bad, "-f", "1"), f"heavy.py: {bad}, line at byte 21000: not UTF-8")
        self.assertEqual(self.refused(traffic.main, bad, "-f", "1", "-d", "ab", "--ask", "x"),
                         "traffic.py: a delimiter of fields is one character of ASCII, not 'ab'")
        for command, *words in ((heavy.main, "-f", "1", "--words"), (heavy.main, "-f", "1", "--column", "a"),
                                (heavy.main, "--words", "--column", "a"), (heavy.main, "-d", ","),
                                (heavy.main, "--words", "-d", ","), (heavy.main, "-f", "0"),
                                (heavy.main, "-f", str(2**32)), (heavy.main, "-f", "x"), (heavy.main, "-f", "1", "-w", "0"),
                                (heavy.main, "--words", "-w", "1"), (heavy.main, "--column", "a", "-w", "1"),
                                (traffic.main, "--ask", "x", "-f", "1", "--words"), (traffic.main, "--ask", "x", "-d", ","),
                                (seen.main, bad, "-f", "1", "--column", "a"), (seen.main, bad, "-d", ","),
                                (seen.main, bad, "--key-field", "1", "--key-column", "a")):
            with self.assertRaises(SystemExit) as refused, contextlib.redirect_stderr(io.StringIO()):
                command([bad, *words])
            self.assertEqual(refused.exception.code, 2, words)


class Weighed(Tests):
    def test_no_estimate_is_too_low(self):
        asked = write(FOLDER, "asked.txt", "".join(f"{word}\n" for word in WEIGHTS) + "nowhere\n")
        found = self.found(traffic.main, "--words", STREAM, "--ask-file", asked, "--hashes", "4", "--buckets", "500")
        told = {each["key"]: each["estimate"] for each in found["keys"]}
        self.assertEqual((found["total"], set(told)), (len(WORDS), set(WEIGHTS) | {"nowhere"}))
        self.assertTrue(all(told[word] >= weight for word, weight in WEIGHTS.items()))
        one = ds.CountMinSketch(4, 500)
        one.update(WORDS)
        self.assertEqual(told, {word: one[word] for word in told})
        self.assertEqual((found["margin"], found["one_in"]), (one.upper_bound("nowhere") - one["nowhere"], 54))

    def test_weights(self):
        rows = [(f"host{n % 50}", n * 37 % 101 - 50) for n in range(3000)]
        path = write(FOLDER, "signed.csv", "host,bytes\n" + "".join(f"{host},{size}\n" for host, size in rows))
        words = (traffic.main, path, "--column", "host", "--weight", "bytes", "--ask", "host3")
        found = self.found(*words, "--signed")
        exact = sum(size for host, size in rows if host == "host3")
        self.assertEqual((found["keys"], found["total"]), ([{"key": "host3", "estimate": exact}], sum(abs(n) for _, n in rows)))
        self.assertRegex(self.refused(*words), r"signed.csv, line at byte \d+: the weight '-\d+' is no whole number from 0 to \d+$")
        self.assertEqual(self.refused(traffic.main, path), "traffic.py: no key is asked for: --ask KEY, or --ask-file FILE")
        status, out, _ = self.here(*words[:4], "--ask", "host3")
        self.assertEqual((status, "host3" in out, "at most 60" in out), (0, True, True))

    def test_two_shapes_of_the_tree(self):
        shape = Traffic(4, 500)
        images = engine.sketches(shape, engine.cut_files([STREAM], PARTS, words=True))
        trees = CLIENT.gather(CLIENT.compute([engine.merged(shape, images, fan_in) for fan_in in (2, PARTS)]))
        one = ds.CountMinSketch(4, 500)
        one.update(WORDS)
        self.assertEqual(trees, [bytes(one)] * 2)


class Kept(Tests):
    def test_no_line_is_missed(self):
        keys = write(FOLDER, "keys.txt", "".join(f"key{n}\n" for n in range(0, 6000, 3)))
        lines = [f"{n},key{n},x" for n in range(6000)]
        path = write(FOLDER, "lines.csv", "n,key,rest\n" + "\n".join(lines) + "\n")
        folder = os.path.join(FOLDER, "kept")
        found = self.found(seen.main, keys, path, "--column", "key", "--one-in", "50", "--write", folder)
        kept = []
        for name in sorted(os.listdir(folder)):
            with open(os.path.join(folder, name), encoding="utf-8") as file:
                kept += file.read().splitlines()
        self.assertLessEqual(set(lines[::3]), set(kept))
        self.assertEqual(kept, [line for line in lines if line in set(kept)], "lines stand as they were")
        self.assertLess(len(kept), 2000 + 4000 // 20)
        self.assertEqual(found["files"], [{"file": path, "lines": 6000, "kept": len(kept)}])
        bits = ds.BloomFilter.suggest_num_bits(2000, 50)
        self.assertEqual((found["keys"], found["bits"], found["hashes"]),
                         (2000, bits, ds.BloomFilter.suggest_num_hashes(bits, 2000)))

    def test_keys_of_a_column(self):
        keys = write(FOLDER, "keys.csv", "id,name\n1,apple\n2,pear\n")
        lines = write(FOLDER, "fruit.txt", "apple\nplum\n\npear\n")
        empty = write(FOLDER, "none.txt", "")
        words = (seen.main, keys, lines, empty, "--key-column", "name", "--one-in", "1000000")
        self.assertEqual([each["kept"] for each in self.found(*words)["files"]], [2, 0])
        status, out, _ = self.here(*words)
        self.assertEqual((status, "2 of 3 lines kept" in out, "0 of 0 lines kept" in out), (0, True, True))
        self.assertEqual(self.refused(seen.main, keys + ".not", lines), f"seen.py: {keys}.not: No such file or directory")

    def test_what_is_written(self):
        keys = write(FOLDER, "keys.txt", "apple\npear\n")
        lines = write(FOLDER, "fruit.txt", "apple\nplum\npear\n")
        packed = write(FOLDER, "more.txt.gz", gzip.compress(b"pear\n"))
        folder = Path(FOLDER, "written")
        words = (seen.main, keys, lines, packed, "--one-in", "1000000", "--write", str(folder))

        def there():
            return {path.name: path.read_text(encoding="utf-8") for path in folder.iterdir()}

        parts = self.found(*words)["parts"]
        self.assertEqual((parts > 2, len(there())), (True, parts), "one file a part, and nothing else")
        self.assertEqual("".join(there()[name] for name in sorted(there())), "apple\npear\npear\n")
        self.assertEqual(there()[f"{parts - 1:06}-more.txt"], "pear\n")
        before = there()
        self.assertIn("--overwrite replaces", self.refused(*words))
        bad = write(FOLDER, "bad.txt", b"apple\n" * 500 + b"b\xe4d\n")
        self.assertIn("not UTF-8", self.refused(seen.main, keys, lines, bad, "--write", str(folder), "--overwrite"))
        self.assertEqual(there(), before, "a job that fails leaves the folder as it was")
        self.found(seen.main, keys, packed, "--write", str(folder), "--overwrite")
        self.assertEqual(there(), {"000000-more.txt": "pear\n"}, "what was replaced is gone")
        (folder / "notes").write_text("mine")
        before = there()
        self.assertIn("notes was not written by this command", self.refused(*words, "--overwrite"))
        self.assertEqual(there(), before)
        self.assertEqual(self.refused(seen.main, keys, lines, "--overwrite"), "seen.py: --overwrite needs --write FOLDER")

    def test_a_file_that_comes_while_a_job_runs(self):
        keys = write(FOLDER, "keys.txt", "apple\n")
        folder = Path(FOLDER, "busy")

        def answer(client, wanted):
            (folder / "000000-keys.txt").write_text("mine")
            return future(client, wanted)

        future = engine.answer
        with mock.patch.object(engine, "answer", answer):
            self.assertIn("--overwrite replaces", self.refused(seen.main, keys, keys, "--write", str(folder)))
        self.assertEqual([path.read_text() for path in folder.iterdir()], ["mine"])

    def test_a_part_that_is_done_twice(self):
        path = write(FOLDER, "twice.txt", "apple\n")
        target = os.path.join(FOLDER, "000000-twice.txt")
        shape = Seen(64, 1)
        image = sketch_part(shape, sketch_parts.whole(path))
        with mock.patch.object(sketch_parts.os, "replace") as replace:
            for _ in range(2):
                self.assertEqual(sketch_parts.filter_part(shape, image, sketch_parts.whole(path), target), (1, 1))
        (one, _), (two, _) = [call.args for call in replace.call_args_list]
        self.assertEqual({Path(one).read_text(), Path(two).read_text()}, {"apple\n"})
        self.assertEqual((len({one, two, target}), {os.path.dirname(one), os.path.dirname(two)}), (3, {FOLDER}))


class Limits(Tests):
    def test_what_no_worker_takes_is_refused_before_work(self):
        with mock.patch.object(engine, "connect", side_effect=AssertionError("workers are started")), \
                mock.patch.object(sketch_parts, "open_file", side_effect=AssertionError("a file is read")):
            for command, fault, *words in ((heavy.main, "MapSizeNotPowerOfTwo", "--size", "65"),
                                           (heavy.main, "MapSizeTooLarge", "--size", str(2**62)),
                                           (traffic.main, "TableTooLarge", "--ask", "x", "--buckets", str(2**31)),
                                           (traffic.main, "hashes", "--ask", "x", "--hashes", "300"),
                                           (traffic.main, "surrogates", "--ask", "\udcff")):
                self.assertIn(fault, self.refused(command, STREAM, *words))
            for command, *words in ((heavy.main, "--threshold", "-1"), (heavy.main, "--threshold", str(2**64)),
                                    (heavy.main, "--size", str(2**63)), (heavy.main, "--fan-in", "1"),
                                    (seen.main, STREAM, "--one-in", str(2**63))):
                with self.assertRaises(SystemExit) as refused, contextlib.redirect_stderr(io.StringIO()):
                    command([STREAM, *words])
                self.assertEqual(refused.exception.code, 2)

    def test_more_keys_than_a_filter_takes(self):
        with self.assertRaises(ds.SketchError) as refused:
            seen.shape_for(2**36, 100)
        self.assertEqual(refused.exception.fault, "BadNumBits")

    def test_no_limit_is_below_an_own_sketch(self):
        for shape in (Traffic(1, (1 << 27) + 1), Seen((1 << 33) + 1, 1)):
            sketch = shape.empty()
            image, kind = bytes(sketch), type(sketch)
            sketch.close()
            with self.assertRaises(ds.SketchError) as refused:
                kind.deserialize(image)
            self.assertEqual(refused.exception.fault, "TableTooLarge", "more than the package reads if no limit is given")
            shape.read(image).close()
        with mock.patch.object(sketch_parts, "ds") as package:
            Heavy(SIZE).read(b"image")
        package.FrequentItemsSketch.deserialize.assert_called_once_with(b"image", item=str, max_bytes=None, key=None)


if __name__ == "__main__":
    unittest.main()
