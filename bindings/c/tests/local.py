"""What the tests of serve.c and forward.c share: queries, and servers on this machine."""

import os
import socket
import struct
import subprocess
import tempfile
import time

HERE = os.path.dirname(os.path.abspath(__file__))
VALGRIND = ["valgrind", "-q", "--leak-check=full", "--trace-children=yes"]
A, MX, TXT, AAAA, IXFR, AXFR, ANY, CAA, CH = 1, 15, 16, 28, 251, 252, 255, 257, 3
RD, CD, OPCODE_STATUS, QR = 0x100, 0x10, 0x1000, 0x8000


def query(number, name, kind, class_=1, flags=RD, edns=None, version=0, questions=1, opts=1):
    """A query. With `edns`, it has an OPT record of this payload size, with DO, or two."""
    labels = b"".join(bytes([len(it)]) + it.encode() for it in name.split(".") if it) + b"\0"
    opt = b"" if edns is None else b"\0" + struct.pack(">HHBBHH", 41, edns, 0, version, 0x8000, 0)
    header = struct.pack(">6H", number, flags, questions, 0, 0, bool(opt) * opts)
    return header + (labels + struct.pack(">HH", kind, class_)) * questions + opt * opts


def free_port():
    """A port that is free for UDP and TCP."""
    with socket.socket() as tcp, socket.socket(socket.AF_INET, socket.SOCK_DGRAM) as udp:
        tcp.bind(("127.0.0.1", 0))
        udp.bind(("127.0.0.1", tcp.getsockname()[1]))
        return tcp.getsockname()[1]


def ask_udp(port, octets, patience=10):
    """The response to a query, or nothing."""
    with socket.socket(socket.AF_INET, socket.SOCK_DGRAM) as it:
        it.settimeout(patience)
        it.connect(("127.0.0.1", port))
        it.send(octets)
        try:
            return it.recv(65535)
        except TimeoutError:
            return b""


def ask_tcp(port, *queries):
    """The responses to queries of one connection. They are sent in three pieces: the first ends within the length of a query."""
    octets = b"".join(struct.pack(">H", len(it)) + it for it in queries)
    with socket.create_connection(("127.0.0.1", port), 10) as it, it.makefile("rb") as answers:
        for piece in (octets[:1], octets[1:3], octets[3:]):
            it.sendall(piece)
            time.sleep(0.1)
        return [answers.read(struct.unpack(">H", answers.read(2))[0]) for _ in queries]


class Servers:
    """Servers that run while this is open, and what they print on standard error."""

    def __init__(self, around=()):
        self.around, self.started, self.said = list(around), [], tempfile.TemporaryFile("w+")

    def __enter__(self):
        return self

    def __exit__(self, *_):
        for it in self.started:
            it.terminate()
            it.wait()
        self.said.seek(0)
        print(self.said.read(), end="")
        self.said.close()

    def start(self, program, words):
        """Starts a server. Its words are functions of its port. Returns the port once it responds to a query without a question."""
        port = free_port()
        self.started.append(subprocess.Popen([*self.around, program, *words(str(port))], stderr=self.said))
        for _ in range(200):
            try:
                if ask_udp(port, query(1, "", A, questions=0), 1):
                    return port
            except ConnectionError:
                pass
            time.sleep(0.05)
        raise OSError(f"{program} doesn't respond")

    def serve(self, program):
        return self.start(program, lambda port: [f"{HERE}/zone.txt", port])

    def forward(self, program, upstream):
        return self.start(program, lambda port: [port, "127.0.0.1", str(upstream)])
