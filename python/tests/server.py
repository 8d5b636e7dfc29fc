"""A server for both schemes on 127.0.0.1, and all hosts that resolve to it while it runs."""
import asyncio.base_events
import contextlib
import http.server
import re
import shutil
import socket
import ssl
import subprocess
import threading

import pytest


class Handler(http.server.BaseHTTPRequestHandler):
    """Answers with what the server's `answer` returns for the request: a status and fields, as bytes."""

    protocol_version = "HTTP/1.1"

    def do_GET(self):
        server = self.server
        url = f"{server.scheme}://{self.headers['Host']}{self.path}"
        # http.server reads each byte as a character.
        header = self.headers.get("Cookie")
        status, fields = server.owner.answer(url, None if header is None else header.encode("latin-1"))
        lines = [b"HTTP/1.1 %d Answer" % status, *(b"%b: %b" % field for field in fields), b"Content-Length: 0", b"", b""]
        self.wfile.write(b"\r\n".join(lines))

    do_POST = do_HEAD = do_GET

    def log_message(self, *_):
        pass


class Servers:
    """The server of each scheme, and what was asked: each URL with the bytes of its `Cookie` header, or None.

    `answers` has the answer of each URL, and else it is an empty page that sets `texts`.
    """

    def __init__(self, folder, hosts):
        self.asked, self.answers, self.texts = [], {}, []
        self.made = {80: self.server("http"), 443: self.server("https")}
        self.certificate = certificate(folder, hosts)
        context = ssl.SSLContext(ssl.PROTOCOL_TLS_SERVER)
        context.load_cert_chain(*self.certificate)
        self.made[443].socket = context.wrap_socket(self.made[443].socket, server_side=True)
        for server in self.made.values():
            threading.Thread(target=server.serve_forever, daemon=True).start()

    def server(self, scheme):
        server = http.server.ThreadingHTTPServer(("127.0.0.1", 0), Handler)
        server.scheme, server.owner, server.daemon_threads = scheme, self, True
        return server

    def answer(self, url, header):
        self.asked.append((url, header))
        if url in self.answers:
            return self.answers[url]
        return 200, [(b"Set-Cookie", text) for text in self.texts]

    def port(self, port):
        """The port of the server that stands for this one."""
        return self.made[port].server_port if port in self.made else port

    def close(self):
        for server in self.made.values():
            server.shutdown()
            server.server_close()


def certificate(folder, hosts):
    """The files of a certificate of these hosts, which is its own authority, and of its key."""
    names = ",".join(f"IP:{host}" if re.fullmatch(r"([0-9]+\.){3}[0-9]+|.*:.*", host) else f"DNS:{host}" for host in hosts)
    if not shutil.which("openssl"):
        pytest.skip("no openssl")
    files = folder / "certificate.pem", folder / "key.pem"
    command = ["openssl", "req", "-x509", "-newkey", "rsa:2048", "-nodes", "-days", "30", "-subj", "/CN=deomigal"]
    command += ["-out", files[0], "-keyout", files[1], "-addext", f"subjectAltName={names}"]
    subprocess.run(command, check=True, capture_output=True)
    return tuple(map(str, files))


@contextlib.contextmanager
def resolved(servers):
    """Has each host resolve to these servers."""
    real, shortcut = socket.getaddrinfo, asyncio.base_events._ipaddr_info

    def looked_up(host, port, *words, **named):
        return [(socket.AF_INET, socket.SOCK_STREAM, 6, "", ("127.0.0.1", servers.port(int(port or 0))))]

    socket.getaddrinfo = looked_up
    # asyncio doesn't look up a host that is an address.
    asyncio.base_events._ipaddr_info = lambda *words, **named: None
    try:
        yield
    finally:
        socket.getaddrinfo, asyncio.base_events._ipaddr_info = real, shortcut
