"""A client that shows replies as they are on the wire, of both versions of the protocol."""
import socket


class Error(Exception):
    """An error that the server returned."""

    def __eq__(self, other):
        return isinstance(other, Error) and str(self) == str(other)

    def __hash__(self):
        return hash(str(self))


class Client:
    """A connection to a unix socket. `version` is that of the protocol: 2 or 3."""

    def __init__(self, path, version=2, timeout=120):
        self.socket = socket.socket(socket.AF_UNIX)
        self.socket.settimeout(timeout)
        self.socket.connect(path)
        self.file = self.socket.makefile("rb")
        if version == 3:
            self("HELLO", 3)

    def send(self, *words):
        self.socket.sendall(packed(words))

    def __call__(self, *words):
        """Sends a command and returns its reply. An error is returned, too, as an `Error`."""
        self.send(*words)
        return self.read()

    def done(self, *words):
        """Sends a command that must not return an error, and returns its reply."""
        reply = self(*words)
        if isinstance(reply, Error):
            raise reply
        return reply

    def many(self, commands):
        """Sends commands in one go, and returns their replies."""
        self.socket.sendall(b"".join(map(packed, commands)))
        return [self.read() for _ in commands]

    def server_time(self):
        """Returns the processor time that the server has taken, in seconds. Unlike the clock, it does not count what runs beside it."""
        lines = self.done("INFO", "cpu").decode().split("\r\n")
        return sum(float(line.split(":")[1]) for line in lines if line.startswith(("used_cpu_sys:", "used_cpu_user:")))

    def read(self):
        line = self.file.readline()
        if not line.endswith(b"\r\n"):
            raise ConnectionError("the server closed the connection")
        kind, rest = line[:1], line[1:-2]
        if kind == b"+":
            return rest.decode()
        if kind == b"-":
            return Error(rest.decode())
        if kind == b":":
            return int(rest)
        if kind == b"$":
            return None if rest == b"-1" else self.file.read(int(rest) + 2)[:-2]
        if kind == b"*":
            return None if rest == b"-1" else [self.read() for _ in range(int(rest))]
        if kind == b"~":
            return [self.read() for _ in range(int(rest))]
        if kind == b"_":
            return None
        if kind == b"#":
            return rest == b"t"
        if kind == b",":
            return float(rest)
        if kind == b"%":
            return {hashable(self.read()): self.read() for _ in range(int(rest))}
        raise ValueError(f"an unknown reply: {line!r}")

    def close(self):
        self.file.close()
        self.socket.close()

    def __enter__(self):
        return self

    def __exit__(self, *_):
        self.close()


def hashable(key):
    return key.decode() if isinstance(key, bytes) else key


def packed(words):
    """Returns a command as it is sent."""
    parts = [b"*%d\r\n" % len(words)]
    for word in words:
        data = word if isinstance(word, bytes) else str(word).encode()
        parts.append(b"$%d\r\n%s\r\n" % (len(data), data))
    return b"".join(parts)
