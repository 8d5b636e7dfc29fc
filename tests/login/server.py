"""The site that `tests/play login` plays, and the CGI servers in front of it."""

import http.server
import os
import secrets
import shutil
import socket
import ssl
import subprocess
import sys
import tempfile
import threading
import time
from contextlib import contextmanager, suppress
from pathlib import Path

PORT = 8765
PATH = "/cgi-bin/login.cgi"
NAME = "__Host-session"
# The forms by which the program's users log in.
ANN, BOB = {"user": "ann", "password": "secret"}, {"user": "bob", "password": "hidden"}


class Site:
    """A folder with the program as a CGI program. The servers may run it as another user, who has to write to `store`."""

    def __init__(self, program):
        self.folder = Path(tempfile.mkdtemp(prefix="play-login-"))
        self.folder.chmod(0o755)
        shutil.copy(program, self.folder / "login")
        (self.folder / "login").chmod(0o755)
        self.secret = secrets.token_hex(32)
        self.store = self.folder / "store"
        self.store.mkdir()
        self.store.chmod(0o777)
        self.program = self.folder / PATH[1:]
        self.program.parent.mkdir()
        # The field `Cookie` of the last request for each path.
        self.heard = {}
        self.keep("revoked.db")

    def __enter__(self):
        return self

    def __exit__(self, *_):
        shutil.rmtree(self.folder, ignore_errors=True)

    def keep(self, name):
        """From the next request on, the file of that name has the revoked sessions."""
        settings = f"SESSION_SECRET={self.secret} REVOKED_SESSIONS={self.store}/{name}"
        self.program.write_text(f"#!/bin/sh\nexport {settings}\nexec {self.folder}/login\n")
        self.program.chmod(0o755)


class Passing(http.server.BaseHTTPRequestHandler):
    """A CGI server that passes the program's status and fields on (RFC 3875)."""

    site = None

    def answer(self):
        content = self.rfile.read(int(self.headers.get("Content-Length") or 0))
        # The fields were read as Latin-1: these are their bytes again.
        cookies = "; ".join(self.headers.get_all("Cookie", [])).encode("latin-1")
        self.site.heard[self.path] = cookies
        words = {"GATEWAY_INTERFACE": "CGI/1.1", "REQUEST_METHOD": self.command, "CONTENT_LENGTH": str(len(content))}
        environment = dict(os.environ, HTTP_COOKIE=cookies, **words)
        done = subprocess.run([self.site.program], input=content, env=environment, capture_output=True)
        head, _, page = done.stdout.partition(b"\r\n\r\n")
        fields = [line.split(": ", 1) for line in head.decode().split("\r\n")]
        self.send_response(next(int(value.split()[0]) for name, value in fields if name == "Status"))
        for name, value in fields:
            if name != "Status":
                self.send_header(name, value)
        self.end_headers()
        self.wfile.write(page)

    do_GET = do_POST = answer

    def log_message(self, *words):
        pass


class Server(http.server.ThreadingHTTPServer):
    """A server that isn't troubled when a client goes before its answer, as a browser does that is closed."""

    def handle_error(self, request, client_address):
        if not isinstance(sys.exc_info()[1], OSError):
            super().handle_error(request, client_address)


def start(handler, certificate=None):
    """Starts a server on a free port, over TLS with a certificate."""
    server = Server(("127.0.0.1", 0), handler)
    if certificate:
        context = ssl.SSLContext(ssl.PROTOCOL_TLS_SERVER)
        context.load_cert_chain(certificate)
        # The handshake is the handler's, so that a client that is slow holds up no other.
        server.socket = context.wrap_socket(server.socket, server_side=True, do_handshake_on_connect=False)
    threading.Thread(target=server.serve_forever, daemon=True).start()
    return server


@contextmanager
def serve(site):
    """Python's CGI server over the site's folder."""
    with open(site.folder / "log", "w") as log:
        command = [sys.executable, "-m", "http.server", "--cgi", "--bind", "127.0.0.1", str(PORT)]
        server = subprocess.Popen(command, cwd=site.folder, stdout=log, stderr=log)
    try:
        while server.poll() is None:
            with suppress(OSError), socket.create_connection(("127.0.0.1", PORT)):
                break
            time.sleep(0.1)
        yield
    finally:
        server.terminate()
        server.wait()
