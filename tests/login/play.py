"""Plays the program `login` as a visitor meets it.

    tests/play login [--program FILE]

Behind `python3 -m http.server --cgi` users log in and out: a wrong password and a cookie that was changed by hand are
refused, and so is each copy of a cookie after its logout, and after a restart of the server. While the file of revoked
sessions can't be opened, nobody is greeted. Then Chromium visits the program over TLS at `shop.example`, and another host
of its domain sets cookies that are to log a visitor in as someone else (sibling.py). A server that decodes names shows that
they would (decoding.py).

It takes openssl and chromium of Debian, and builds the program by `rt run` unless FILE has it.
"""

import argparse
import concurrent.futures
import fcntl
import http.client
import re
import subprocess
import sys
import time
import urllib.parse
from pathlib import Path

from server import ANN, BOB, NAME, PATH, PORT, Site, serve
from shared import TOP, check, end, try_python
from sibling import play_chromium, play_sibling

CRATE = TOP / "crates/login"
GREETED, STRANGER = (200, "Hello, ann!"), (200, "Who are you?")


def ask(cookie=None, **form):
    """The text of the field `Set-Cookie`, and the status and the page. Python's server passes the status on as a field."""
    connection = http.client.HTTPConnection("127.0.0.1", PORT, timeout=30)
    fields = {"Cookie": cookie} if cookie else {}
    if form:
        fields["Content-Type"] = "application/x-www-form-urlencoded"
    connection.request("POST" if form else "GET", PATH, urllib.parse.urlencode(form) if form else None, fields)
    response = connection.getresponse()
    text, status, page = response.getheader("Set-Cookie"), int(response.getheader("Status")), response.read().decode().strip()
    connection.close()
    return text, (status, page)


def shown(cookie=None, **form):
    """The status and the page."""
    return ask(cookie, **form)[1]


def log_in(cookie=None, **form):
    """The cookie of who logged in."""
    return ask(cookie, **(form or ANN))[0].partition(";")[0]


def log_out(cookie):
    return shown(cookie, logout="1")


def is_refused(answer, status):
    """Whether it has this status, and sets no cookie and greets nobody."""
    text, (told, page) = answer
    return text is None and told == status and "Please try again" in page and "Hello" not in page


def play_login():
    check("a stranger is asked for a name", shown() == STRANGER)
    check("a wrong password gives 403", is_refused(ask(user="ann", password="guess"), 403))
    check("so does a user who isn't there", is_refused(ask(user="nobody", password="secret"), 403))
    text, answer = ask(**ANN)
    check("the right password greets ann", answer == GREETED, answer)
    form = rf"{NAME}=\S+; HttpOnly; SameSite=Lax; Secure; Path=/; Max-Age=1800"
    check("the cookie is for this host, secure, kept from scripts, and for half an hour", re.fullmatch(form, text), text)
    cookie = text.partition(";")[0]
    check("the user's name isn't to be read in it", "ann" not in cookie, cookie)
    check("with it ann is greeted, also beside a cookie that isn't UTF-8", shown(cookie) == shown("a=\xe9; " + cookie) == GREETED)
    changed = cookie[:-1] + ("A" if cookie[-1] != "A" else "B")
    check("changed by hand it isn't taken, nor under another name", shown(changed) == shown(cookie.replace(NAME, "__Host-other")) == STRANGER)
    check("a form of more than 4096 bytes isn't read", shown(**ANN, more="x" * 4096) == STRANGER)


def play_copies():
    """Returns cookies that were logged out, and one of ann's at another machine."""
    copies, other = [log_in()], log_in()
    check("the logout says so", log_out(copies[0]) == (200, "You are logged out."))
    check("then the copy of the cookie is refused", shown(copies[0]) == STRANGER)
    check("ann's session at another machine stays open", shown(other) == GREETED)
    check("a logout with the refused copy is answered", log_out(copies[0])[0] == 200)
    before = log_in()
    after = log_in(before, **BOB)
    check("a login over ann's session greets bob, and ends ann's", shown(after)[1] == "Hello, bob!" and shown(before) == STRANGER)
    log_out(after)
    check("after bob's logout his copy is refused, too", shown(after) == STRANGER)
    return [*copies, before, after], other


def play_held(cookie, path):
    """Another process has the database open: SQLite's lock is on these bytes."""
    with open(path, "r+b") as file:
        fcntl.lockf(file, fcntl.LOCK_EX, 512, 1 << 30)
        start = time.monotonic()
        answer = ask(cookie)
        seconds = time.monotonic() - start
        check("while another process has the file open, the answer is 503", is_refused(answer, 503), answer)
        check("and comes after one and a half to three seconds", 1.5 < seconds < 3, seconds)
        check("a login and a logout are refused so, too", is_refused(ask(cookie, **ANN), 503) and is_refused(ask(cookie, logout="1"), 503))
    check("once it is closed ann is greeted", shown(cookie) == GREETED)


def play_at_once(cookie):
    with concurrent.futures.ThreadPoolExecutor(8) as pool:
        answers = list(pool.map(lambda _: ask(cookie), range(40)))
    right, refused = sum(answer == GREETED for _, answer in answers), sum(is_refused(answer, 503) for answer in answers)
    check(f"of 40 requests by eight clients {right} are greeted, the others get 503", right and right + refused == 40, answers)


def play_requests(program):
    with Site(program) as site:
        with serve(site):
            play_login()
            copies, other = play_copies()
        with serve(site):
            check("after a restart of the server the copies are refused", all(shown(copy) == STRANGER for copy in copies))
            check("and ann's session at another machine is open", shown(other) == GREETED)
            play_held(other, site.store / "revoked.db")
            play_at_once(other)
            site.keep("folder")
            (site.store / "folder").mkdir()
            check("with a file that can't be opened the answer is 503", is_refused(ask(other), 503))


def built():
    """The program, built from the sources as they are."""
    subprocess.run(["rt", "run"], cwd=CRATE, stdin=subprocess.DEVNULL, capture_output=True)
    program = CRATE / "out/login"
    return program if program.exists() else sys.exit(f"{program} was not built")


def main():
    parser = argparse.ArgumentParser(prog="tests/play login", description="Plays the program login, also with Chromium.")
    parser.add_argument("--program", type=Path, help="the program; without it rt run builds it")
    words = parser.parse_args()
    try_python.install_packages({}, {"openssl": "openssl", "chromium": "chromium"})
    program = (words.program or built()).resolve()
    print("behind python3 -m http.server --cgi")
    play_requests(program)
    print("in Chromium, over TLS, and beside other hosts of its domain")
    play_chromium(program)
    play_sibling(program)
    end()


if __name__ == "__main__":
    main()
