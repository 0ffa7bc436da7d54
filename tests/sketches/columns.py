"""Fields from the end and items of several fields: what they are, and checks of `sketches` for `sketches.py`."""

BAD = b"sketches: --field, --weight and --keys-field must be numbers from 1 to 4294967295 or from -1 to -4294967295, or with --csv names\n"
MANY = b"sketches: --field and --keys-field must have at most 8 fields\n"
LIST = b"sketches: --weight must be one field; with --csv a name with a comma stands in quotes\n"


def made_of(columns, numbers, between):
    """Returns the item of the columns of these numbers, of which those below 0 are counted from the end, or none if one is missing."""
    places = [number - 1 if number > 0 else len(columns) + number for number in numbers]
    return [between.join(columns[at] for at in places)] if all(0 <= at < len(columns) for at in places) else []


def spelled(text, delimiter=b","):
    """Returns a field of CSV that has a text."""
    needs_quotes = any(byte in text for byte in [delimiter, b'"', b"\n", b"\r"])
    return b'"' + text.replace(b'"', b'""') + b'"' if needs_quotes else text


def made_of_row(row, numbers, delimiter=b","):
    """Returns the item of fields of CSV: the text of one field, or the spelling of several."""
    return made_of(row if len(numbers) == 1 else [spelled(text, delimiter) for text in row], numbers, delimiter)


class Columns:
    def __init__(self, tests):
        self.tests = tests

    def run(self):
        self.worked()
        self.wrong()

    def worked(self):
        """Checks outputs that are written out by hand."""
        eight = "1,2,3,4,5,6,7,8"
        for words, keys, data, wanted in [
            (["top", "-f", "-1"], b"", b"a b\nc\n\n d e \n b\n", b"# error 0 of 4\n2\t2\tb\n1\t1\tc\n1\t1\te\n"),
            (["top", "-f-2"], b"", b"a b\nc\n d e f\n", b"# error 0 of 2\n1\t1\ta\n1\t1\te\n"),
            (["top", "--field=1,-1"], b"", b"a b\na x b\na\nc\td\n\n", b"# error 0 of 4\n2\t2\ta b\n1\t1\ta a\n1\t1\tc d\n"),
            (["top", "-d", ":", "-f", "2,1"], b"", b"a:b\nb:a:\na\na:b:c\n", b"# error 0 of 3\n2\t2\tb:a\n1\t1\ta:b\n"),
            (["top", "-f", "-1,-2", "-d", ":"], b"", b":\n\na:\n", b"# error 0 of 2\n1\t1\t:\n1\t1\t:a\n"),
            (["top", "-f", "-4294967295"], b"", b"a b\n", b"# error 0 of 0\n"),
            (["top", "-f", eight], b"", b"a b c d e f g h i\na b c\n", b"# error 0 of 1\n1\t1\ta b c d e f g h\n"),
            (["top", "-f", "1", "-w", "-1"], b"", b"a 1 5\na 7\nb 3\n", b"# error 0 of 15\n12\t12\ta\n3\t3\tb\n"),
            (["top", "-f", "-2", "-w", "-1"], b"", b"x a 5\na 7\nb 3\n3\n", b"# error 0 of 15\n12\t12\ta\n3\t3\tb\n"),
            (["top", "-f", "1,2", "-w", "3"], b"", b"a b 5\na b 7\nb a 1\na\n", b"# error 0 of 13\n12\t12\ta b\n1\t1\tb a\n"),
            (["uniq", "-f", "1,3", "--no-note"], b"", b"a x b\na y b\nb x a\na b\n", b"a x b\nb x a\na b\n"),
            (["uniq", "-d", ",", "-f", "-1", "--no-note"], b"", b"a,b\nb\n,\n\na,", b"a,b\n,\n"),
            (["join", "-f", "2,1", "--no-note"], b"b a\n", b"a b c\nb a\n a  b\n", b"a b c\n a  b\n"),
            (["join", "-f", "1", "--keys-field", "-1", "--no-note"], b"1 b\n2 c d\n", b"b\nc\nd\n", b"b\nd\n"),
            (["weigh", "-f", "-2,-1", "--keys-field", "1,2"], b"a b\nc d x\n", b"q a b\na b\nd c\n", b"# total 3\n2\ta b\n0\tc d\n"),
            (["weigh", "-d", ",", "-f", "1,2", "-w", "-1", "--keys-field", "1,2"], b"a,b\n", b"a,b,4\nb,a,1\na,b,x,2\n", b"# total 7\n6\ta,b\n"),
        ]:
            self.tests.file("keys", keys)
            ran = self.tests.run([*words, *(["--keys", "keys"] if keys else [])], data)
            self.tests.check(f"columns: {words} of {data}", ran[:3] == (0, wanted, b""), ran)

    def wrong(self):
        """Checks fields that are not allowed."""
        self.tests.file("keys", b"a\n")
        keys = ["--keys", "keys"]
        cases = [(["-f", text], BAD) for text in ["0", "-0", "1,0", "4294967296", "1,-4294967296", "1,,2", "1,", ",1", "x", "1,x", "-x", "-", '"1"', "", "1, 2", "--1"]]
        cases += [(["-f", "1,2,3,4,5,6,7,8,9"], MANY), (["-f", "1" + 9 * ",-1"], MANY)]
        for words, said in cases:
            for command in [["top"], ["uniq"], ["join", *keys], ["weigh", *keys]]:
                ran = self.tests.run([*command, *words], b"a b\n")
                self.tests.check(f"columns: {command} {words}", ran[:3] == (2, b"", said), ran)
        for words, said in [(["top", "-f", "1", "-w", "1,2"], LIST), (["weigh", "-w", "-1,2", *keys], LIST), (["top", "-w", "-0"], BAD),
                            (["join", "--keys-field", "-0", *keys], BAD), (["weigh", "--keys-field", "1" + 8 * ",1", *keys], MANY)]:
            ran = self.tests.run(words, b"a b\n")
            self.tests.check(f"columns: {words}", ran[:3] == (2, b"", said), ran)
