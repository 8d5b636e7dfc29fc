"""`python -m deomigal explain URL` says what a browser makes of `Set-Cookie` lines, as cookie_explain does."""
from __future__ import annotations

import argparse
import datetime
import pathlib
import sys

from .dates import read_date
from .explain import report, suffix_list


def date(text: str) -> datetime.datetime:
    """The date, for the command line."""
    if (moment := read_date(text.encode())) is None or not 1970 <= moment.year <= 9998:
        raise argparse.ArgumentTypeError("no date of the years 1970 to 9998")
    return moment


def main() -> None:
    parser = argparse.ArgumentParser(prog="python -m deomigal")
    command = parser.add_subparsers(required=True, metavar="explain").add_parser(
        "explain", help="say what a browser makes of Set-Cookie lines", description="Reads Set-Cookie lines from "
        "standard input. For each it prints what a browser stores, or why it refuses the cookie (RFC 6265bis).",
    )
    command.add_argument("url", metavar="URL", help="the address that the response comes from")
    command.add_argument("--now", metavar="DATE", type=date, help="the time of the response, as an HTTP date")
    command.add_argument("--suffixes", metavar="FILE", help="the list of public suffixes")
    command.add_argument("--cross-site", action="store_true", help="another site's page made the request")
    arguments = parser.parse_args()
    out, path = sys.stdout.buffer, arguments.suffixes
    try:
        title, suffixes = (path, pathlib.Path(path).read_bytes()) if path else suffix_list()
        out.write(f"public suffixes: {title}\n".encode())
        out.write(report(arguments.url, sys.stdin.buffer.read(), suffixes, arguments.cross_site, arguments.now))
    except (OSError, ValueError) as error:
        sys.stdout.flush()
        command.error(str(error))


main()
