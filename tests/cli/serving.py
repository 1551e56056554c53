"""Cases of `serve` and `search` over the loopback interface: raw clients, false servers, and the two with each other.

A case is a function of the program and of a folder, which has the files of data/, and gives its faults as texts. Each
server is of the case that starts it, and has ended when the case has. Ports are those that the system says are free.

The program listens on all addresses, so the cases run in a network namespace of their own, which has no other interface
than the loopback one: `alone` makes it, by itself where it may and else in a user namespace of its own. Where neither is
permitted the cases can't run, and so have failed.
"""
import contextlib
import ctypes
import fcntl
import os
import shutil
import socket
import struct
import subprocess
import threading
import time

HOST = "127.0.0.1"
SECONDS = 60
FOUND = b"hits 3\n1 0 12 Sea\n2 1 4 Harbour\n3 2 4 Tide\nunknown 0\ndocument 0 12\nsea sea wind\n"
PUBLIC = bytes.fromhex(
    "434f45555350423100000200000000040000000500000010000000000000000100000001000000010768617262"
    "6f7572046d6f6f720373656104746964650477696e64"
)
PHRASES = {
    200: "OK", 400: "Bad Request", 404: "Not Found", 405: "Method Not Allowed", 409: "Conflict",
    411: "Length Required", 431: "Request Header Fields Too Large", 500: "Internal Server Error",
    503: "Service Unavailable",
}


def alone():
    """Takes this process, and those that it starts from here on, into a network namespace of its own."""
    new_user, new_network = 0x10000000, 0x40000000
    library = ctypes.CDLL(None, use_errno=True)
    users = f"0 {os.geteuid()} 1", f"0 {os.getegid()} 1"
    if library.unshare(new_network):
        if library.unshare(new_user | new_network):
            raise OSError(ctypes.get_errno(), "no network namespace of its own is permitted")
        for name, text in ("setgroups", "deny"), ("uid_map", users[0]), ("gid_map", users[1]):
            with open(f"/proc/self/{name}", "w", encoding="ascii") as file:
                file.write(text)
    set_flags, up_and_running = 0x8914, 0x41
    with socket.socket() as any_socket:
        fcntl.ioctl(any_socket, set_flags, struct.pack("16sh22x", b"lo", up_and_running))


def response(status, body=b"", closes=False):
    head = f"HTTP/1.1 {status} {PHRASES[status]}\r\nContent-Length: {len(body)}\r\n"
    return head.encode() + (b"Connection: close\r\n" if closes else b"") + b"\r\n" + body


def get(path):
    return f"GET {path} HTTP/1.1\r\nHost: archive\r\n\r\n".encode()


def post(path, body, length=None):
    length = len(body) if length is None else length
    return f"POST {path} HTTP/1.1\r\nHost: archive\r\nContent-Length: {length}\r\n\r\n".encode() + body


def free_port():
    with socket.create_server((HOST, 0)) as taken:
        return taken.getsockname()[1]


def listens(port):
    """Whether some program listens on the port; it doesn't connect, which would be a connection of the server."""
    with open("/proc/net/tcp", encoding="ascii") as table:
        rows = [line.split() for line in table.readlines()[1:]]
    return any(row[3] == "0A" and int(row[1].split(":")[1], 16) == port for row in rows)


class Server:
    """`serve` on a library of C1; `ended` waits for it and gives its status, its lines and its error output."""

    def __init__(self, program, folder, connections=1, degree=512, workers=4, out=subprocess.PIPE):
        self.port = free_port()
        library = f"c1-{degree}.library"
        if not os.path.exists(os.path.join(folder, library)):
            words = [program, "import", "c1.jsonl", library, "--degree", str(degree)]
            subprocess.run(words, check=True, cwd=folder, stdout=subprocess.DEVNULL)
        words = [program, "serve", library, "--port", str(self.port), "--connections", str(connections)]
        words += ["--workers", str(workers)]
        self.process = subprocess.Popen(words, cwd=folder, stdin=subprocess.DEVNULL, stdout=out, stderr=subprocess.PIPE)
        until = time.monotonic() + SECONDS
        while not listens(self.port) and self.process.poll() is None and time.monotonic() < until:
            time.sleep(0.01)

    def __enter__(self):
        return self

    def __exit__(self, *fault):
        if self.process.poll() is None:
            self.process.kill()
        self.process.communicate()

    def connect(self):
        line = socket.create_connection((HOST, self.port), timeout=SECONDS)
        line.setsockopt(socket.IPPROTO_TCP, socket.TCP_NODELAY, 1)
        return line

    def ended(self):
        out, err = self.process.communicate(timeout=SECONDS)
        return self.process.returncode, out, err


def read(line, count):
    """So many bytes, or fewer where the connection ends, and what comes at once behind them."""
    taken = b""
    while len(taken) < count and (piece := line.recv(count - len(taken))):
        taken += piece
    line.settimeout(0.05)
    with contextlib.suppress(TimeoutError):
        taken += line.recv(65536)
    line.settimeout(SECONDS)
    return taken


def talk(server, said, wanted):
    """What is wrong with the server's answer to these bytes, behind which the client sends nothing more.

    The server ends a connection when the next one comes, or with itself, so the client doesn't wait for that."""
    with server.connect() as line:
        line.sendall(said)
        line.shutdown(socket.SHUT_WR)
        return differs(repr(said[:40]), wanted, read(line, len(wanted)))


def differs(what, wanted, found):
    return [] if wanted == found else [f"{what}: wanted {wanted[-200:]!r}, found {found[-200:]!r}"]


def ended_as(server, status, out, err=b""):
    found_status, found_out, found_err = server.ended()
    faults = [] if found_status == status else [f"status: wanted {status}, found {found_status}"]
    return faults + differs("stdout", out, found_out) + differs("stderr", err, found_err)


def search(program, folder, port, words, host=HOST):
    words = [program, "search", host, str(port), *words]
    ran = subprocess.run(words, cwd=folder, stdin=subprocess.DEVNULL, capture_output=True, timeout=SECONDS, check=False)
    return ran.returncode, ran.stdout, ran.stderr


def searches_as(program, folder, port, words, status, out, err=b""):
    found = search(program, folder, port, words)
    faults = [] if found[0] == status else [f"status: wanted {status}, found {found[0]}"]
    return faults + differs("stdout", out, found[1]) + differs("stderr", err, found[2])


# ---- raw clients


def published_numbers(program, folder):
    with Server(program, folder) as server:
        faults = talk(server, get("/public"), response(200, PUBLIC))
        return faults + ended_as(server, 0, b"connection 1 requests 1 closed\n")


def one_byte_at_a_time(program, folder):
    with Server(program, folder) as server:
        with server.connect() as line:
            for byte in get("/public"):
                line.sendall(bytes([byte]))
                time.sleep(0.002)
            faults = differs("reply", response(200, PUBLIC), read(line, len(response(200, PUBLIC))))
        return faults + ended_as(server, 0, b"connection 1 requests 1 closed\n")


def refusals(program, folder):
    fields = "".join(f"F{number}: x\r\n" for number in range(65))
    said = [
        (get("/x"), response(404, closes=True), "refused 404"),
        (get("/score"), response(405, closes=True), "refused 405"),
        (b"POST /public HTTP/1.1\r\nContent-Length: 0\r\n\r\n", response(405, closes=True), "refused 405"),
        (b"POST /score HTTP/1.1\r\nHost: archive\r\n\r\n", response(411, closes=True), "refused 411"),
        (post("/score", b"short"), response(400, b"length 14336 5\n", True), "refused 400"),
        (b"GET /public HTTP/1.1\r\nContent-Length: 3\r\n\r\nabc", response(400, b"length 0 3\n", True), "refused 400"),
        (post("/score", b"", "+5"), response(400, closes=True), "refused 400"),
        (b"\x00\x01\x02\r\n\r\n", response(400, closes=True), "refused 400"),
        (f"GET /public HTTP/1.1\r\n{fields}\r\n".encode(), response(431, closes=True), "refused 431"),
        (b"GET /public HTTP/1.1\r\nA: ".ljust(16384, b"a"), response(431, closes=True), "refused 431"),
    ]
    lines = [f"connection {number + 1} requests 1 {end}\n" for number, (_, _, end) in enumerate(said)]
    with Server(program, folder, connections=len(said)) as server:
        faults = []
        for bytes_said, wanted, _ in said:
            faults += talk(server, bytes_said, wanted)
        return faults + ended_as(server, 0, "".join(lines).encode())


def clients_that_leave(program, folder):
    with Server(program, folder, connections=4) as server:
        faults = talk(server, b"", b"")
        faults += talk(server, b"GET /public HTTP/1.1\r\n", b"")
        faults += talk(server, post("/score", b"abc", 14336), b"")
        faults += talk(server, get("/public") + b"GET", response(200, PUBLIC))
        lines = ["requests 0 closed", "requests 0 cut", "requests 0 cut", "requests 1 cut"]
        lines = "".join(f"connection {number + 1} {line}\n" for number, line in enumerate(lines))
        return faults + ended_as(server, 0, lines.encode())


def broken_connection(program, folder):
    with Server(program, folder, connections=2) as server:
        with server.connect() as line:
            line.sendall(b"GET")
            # closed at once, the system resets the connection: the server's next take fails
            line.setsockopt(socket.SOL_SOCKET, socket.SO_LINGER, struct.pack("ii", 1, 0))
        faults = talk(server, get("/public"), response(200, PUBLIC))
        lines = b"connection 1 requests 0 read fault\nconnection 2 requests 1 closed\n"
        return faults + ended_as(server, 0, lines)


def keys_of_a_session(program, folder):
    keys, score = bytes(64512), bytes(1792)
    bad = bytes.fromhex("01000000006004") + score[7:]
    said = [post("/score", score), post("/keys", keys), post("/score", score), post("/score", bad), post("/score", score)]
    with Server(program, folder, degree=64) as server:
        reply = response(200, bytes(1792))
        wanted = response(409) + response(200) + reply + response(400, b"range 0\n") + reply
        faults = talk(server, b"".join(said), wanted)
        return faults + ended_as(server, 0, b"connection 1 requests 5 closed\n")


def keys_go_with_the_connection(program, folder):
    with Server(program, folder, connections=2, degree=64) as server:
        faults = talk(server, post("/keys", bytes(64512)), response(200))
        faults += talk(server, post("/score", bytes(1792)), response(409))
        return faults + ended_as(server, 0, b"connection 1 requests 1 closed\nconnection 2 requests 1 closed\n")


def many_requests(program, folder):
    with Server(program, folder) as server:
        wanted = response(200, PUBLIC) * 999 + response(200, PUBLIC, True)
        with server.connect() as line:
            sender = threading.Thread(target=lambda: line.sendall(get("/public") * 1000))
            sender.start()
            faults = differs("replies", wanted, read(line, len(wanted)))
            sender.join()
        return faults + ended_as(server, 0, b"connection 1 requests 1000 spent\n")


def with_curl(program, folder):
    curl = shutil.which("curl")
    if not curl:
        return []
    with open(os.path.join(folder, "zeros"), "wb") as file:
        file.write(bytes(1792))
    with Server(program, folder, connections=2, degree=64) as server:
        place = f"http://{HOST}:{server.port}"
        how = {"cwd": folder, "capture_output": True, "timeout": SECONDS, "check": False}
        ran = subprocess.run([curl, "-s", "-w", "%{http_code}", f"{place}/public"], **how)
        faults = [] if ran.stdout.startswith(b"COEUSPB1") and ran.stdout.endswith(b"200") else [f"curl: {ran.stdout!r}"]
        words = ["-s", "-w", "%{http_code}", "--data-binary", "@zeros", f"{place}/score"]
        faults += differs("curl", b"409", subprocess.run([curl, *words], **how).stdout)
        return faults + ended_as(server, 0, b"connection 1 requests 1 closed\nconnection 2 requests 1 closed\n")


# ---- searches


def two_searches(program, folder):
    with Server(program, folder, connections=2) as server:
        faults = searches_as(program, folder, server.port, ["--", "sea", "wind"], 0, FOUND)
        rest = FOUND.split(b"document")[0] + b"no document\n"
        faults += searches_as(program, folder, server.port, ["--pick", "9", "--", "sea", "wind"], 0, rest)
        lines = b"connection 1 requests 5 closed\nconnection 2 requests 5 closed\n"
        return faults + ended_as(server, 0, lines)


def other_numbers_of_workers(program, folder):
    faults = []
    for workers in (1, 7, 64):
        with Server(program, folder, degree=64, workers=workers) as server:
            faults += searches_as(program, folder, server.port, ["--", "sea", "wind"], 0, FOUND)
            faults += ended_as(server, 0, b"connection 1 requests 5 closed\n")
    return faults


def unknown_words(program, folder):
    with Server(program, folder, degree=64) as server:
        wanted = b"hits 0\nunknown 1\nzebra\nno document\n"
        faults = searches_as(program, folder, server.port, ["--", "zebra"], 0, wanted)
        return faults + ended_as(server, 0, b"connection 1 requests 5 closed\n")


def too_many_keywords(program, folder):
    words = ["--", *(f"w{number}" for number in range(1, 18))]
    with Server(program, folder, degree=64) as server:
        faults = searches_as(program, folder, server.port, words, 5, b"", b"coeus: 17 keywords, at most 16\n")
        faults += ended_as(server, 0, b"connection 1 requests 0 closed\n")
        # the dial comes first
        return faults + searches_as(program, folder, server.port, words, 7, b"", b"coeus: link\n")


def no_server(program, folder):
    faults = searches_as(program, folder, free_port(), ["--", "sea"], 7, b"", b"coeus: link\n")
    found = search(program, folder, 80, ["--", "sea"], "no-such-host.invalid")
    return faults + ([] if found == (7, b"", b"coeus: link\n") else [f"a host without address: {found}"])


# ---- false servers


@contextlib.contextmanager
def answering(reply, holds=False):
    """A server that takes one connection, reads one head and puts these bytes; it closes then, or after the client."""
    with socket.create_server((HOST, 0)) as port:
        def serve():
            line, _ = port.accept()
            with line:
                line.settimeout(SECONDS)
                taken = b""
                while b"\r\n\r\n" not in taken and (piece := line.recv(65536)):
                    taken += piece
                line.sendall(reply)
                if holds:
                    with contextlib.suppress(ConnectionError):
                        line.recv(1)
        server = threading.Thread(target=serve)
        server.start()
        yield port.getsockname()[1]
        server.join()


def false_servers(program, folder):
    rows = PUBLIC[:28] + (2).to_bytes(4, "big") + PUBLIC[32:]
    crowded = bytes.fromhex("434f455553504231") + b"".join(
        number.to_bytes(4, "big") for number in (16, 4, 0, 16, 0, 2, 17, 1)
    )
    said = [
        (response(500, b"x"), 8, "refused public 500"),
        (response(503), 10, "refused public 503"),
        (response(200, PUBLIC[:8] + (4095).to_bytes(4, "big") + PUBLIC[12:]), 8, "bad public 8"),
        (response(200, PUBLIC[:20] + bytes(4) + PUBLIC[24:]), 8, "bad public 20"),
        (response(200, rows), 8, "bad public 28"),
        (response(200, PUBLIC.replace(b"harbour", b"zarbour")), 8, "bad public 49"),
        (response(200, PUBLIC + b"x"), 8, "bad public 67"),
        (response(200, crowded), 4, "test: rows 17 over degree 16"),
        (b"", 7, "link"),
        (b"HTTP/1.1 200 OK\r\n\r\n", 7, "link"),
        (b"HTTP/1.1 200 OK\r\nContent-Length: 8519721\r\n\r\n", 7, "link"),
        (response(200, PUBLIC)[:-1], 7, "link"),
        (response(200, PUBLIC), 7, "link"),
    ]
    faults = []
    for reply, status, line in said:
        with answering(reply) as port:
            found = searches_as(program, folder, port, ["--", "sea"], status, b"", f"coeus: {line}\n".encode())
        faults += [f"{reply[:40]!r}: {fault}" for fault in found]
    return faults


def body_over_the_limit(program, folder):
    # a client that reads the body would wait for it
    with answering(b"HTTP/1.1 200 OK\r\nContent-Length: 8519721\r\n\r\n", holds=True) as port:
        return searches_as(program, folder, port, ["--", "sea"], 7, b"", b"coeus: link\n")


# ---- failures of serve


def port_taken(program, folder):
    with Server(program, folder) as server:
        words = [program, "serve", "c1-512.library", "--port", str(server.port)]
        ran = subprocess.run(words, cwd=folder, capture_output=True, timeout=SECONDS, check=False)
        found = ran.returncode, ran.stdout, ran.stderr
        faults = [] if found == (7, b"", b"coeus: link\n") else [f"a port that is taken: {found}"]
        faults += talk(server, b"", b"")
        return faults + ended_as(server, 0, b"connection 1 requests 0 closed\n")


def full_output(program, folder):
    with open("/dev/full", "wb") as full, Server(program, folder, connections=2, out=full) as server:
        faults = talk(server, get("/public"), response(200, PUBLIC))
        status, _, err = server.ended()
        return faults + ([] if (status, err) == (9, b"coeus: output\n") else [f"full output: {status} {err!r}"])


CASES = [
    published_numbers, one_byte_at_a_time, refusals, clients_that_leave, broken_connection, keys_of_a_session,
    keys_go_with_the_connection, many_requests, with_curl, two_searches, other_numbers_of_workers, unknown_words,
    too_many_keywords, no_server, false_servers, body_over_the_limit, port_taken, full_output,
]
