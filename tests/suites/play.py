#!/usr/bin/env python3
"""Plays the tests that frameworks and clients have of cookies with the Python package in the place of their own code.

    tests/play suites [--wheel FILE] [--sources FOLDER]

It plays Django's tests of sessions, and the tests of CPython, httpx and aiohttp on their jars. Each that isn't shared
has its reason. It prints its rows of the tables of python/README.md, and compares them with the page. Tests in our words
are in python/tests.

It gets the tests from Debian's sources, unless they are in FOLDER. The package is that of `tools/install`, which it runs
unless FILE is its wheel. No other host is asked.
"""
import argparse
import json
import os
import re
import subprocess
import sys
import tarfile
import tempfile
from pathlib import Path
from typing import NamedTuple

from shared import TOP, check, end, environment_of, try_python

HERE = Path(__file__).resolve().parent
PAGE = TOP / "python/README.md"
# Beside what python/tests need.
PACKAGES = {**try_python.PACKAGES, "freezegun": "python3-freezegun"}
NO_SECOND = "`Set-Cookie2`, `Cookie2` and `$Version` are no longer used (RFC 6265 9.3, 9.4)"
POLICY = "the rules are RFC 6265bis's, and a `CookiePolicy` has none to add"
HOSTLESS = "they set a cookie for all hosts: a cookie has a host (RFC 6265bis, Storage Model)"
SECURE = "`Secure` over http isn't stored (RFC 6265bis, Storage Model)"
# Why our jar doesn't pass some tests, with their names.
CPYTHON = {
    NO_SECOND: """test_default_path test_domain_mirror test_empty_path test_ietf_example_1 test_ietf_example_2
        test_intranet_domains_2965 test_missing_final_slash test_netscape_example_1 test_path_mirror test_port_mirror
        test_quote_cookie_value test_rfc2109_handling test_two_component_domain_rfc2965 test_url_encoding""",
    POLICY: "test_custom_secure_protocols test_domain_allow test_domain_block",
    SECURE: "test_secure",
    "an age that is no number is ignored, and the cookie is stored (RFC 6265bis, The Max-Age Attribute)": "test_bad_cookie_header",
    "the host `example` isn't in the domain `local` (RFC 6265bis, Storage Model)": "test_intranet_domains_ns",
    "a domain that is a public suffix and the host makes the cookie host-only (RFC 6265bis, Storage Model)":
        "test_localhost_domain_contents",
    "`port` is no attribute (RFC 6265bis, The Set-Cookie Header Field)": "test_ns_parser",
    "a cookie without a domain isn't sent to the hosts below (RFC 6265bis, Retrieval Algorithm)": "test_two_component_domain_ns",
}
HTTPX = {
    HOSTLESS: """test_set_cookie test_set_per_request_cookie_is_deprecated test_set_cookie_with_cookiejar
        test_setting_client_cookies_to_cookiejar test_set_cookie_with_cookies_model test_cookies
        test_cookies_can_be_a_list_of_tuples""",
    "`http://blah.com` is no host (RFC 6265bis, Storage Model)": "test_cookies_repr",
    "`example.com` is shown as `.example.com`, as by `http.cookiejar`: a dot before a domain doesn't count (RFC 6265bis, The Domain "
    "Attribute)": "test_cookies_update",
}
AIOHTTP = {
    HOSTLESS: """test_constructor test_constructor_with_expired test_filter_cookies_with_domain_path_lookup_multilevelpath
        test_domain_filter_ip_cookie_send test_quotes_correctly_based_on_input test_cookie_not_expired_when_added_after_removal
        test_domain_filter_diff_host test_domain_filter_same_host test_domain_filter_same_host_and_subdomain
        test_domain_filter_same_host_diff_subdomain test_expires test_invalid_values test_max_age test_path_filter_different_folder
        test_path_filter_file test_path_filter_folder test_path_filter_root test_path_filter_subfolder
        test_path_filter_subsubfolder test_path_value test_secure_filter test_loose_cookies_types test_cookie_jar_clear_all
        test_cookie_jar_clear_expired test_cookie_jar_expired_changes test_cookie_jar_filter_cookies_expires
        test_cookie_jar_clear_domain test_shared_cookie_with_multiple_domains test_save_load test_save_load_json_roundtrip
        test_load_falls_back_to_pickle""",
    "they look at the inner parts of aiohttp's jar, such as its heap and its cache":
        """test_save_load_partitioned_cookies test_cookie_jar_duplicates_with_expire_heap test_cookie_jar_heap_cleanup
        test_cookie_jar_heap_maintains_order_after_cleanup test_pickle_format test_treat_as_secure_origin_init
        test_filter_cookies_does_not_leak_memory test_shared_cookie_cache_population test_shared_cookie_cache_clearing_on_update
        test_shared_cookie_cache_clearing_on_delete test_shared_cookie_cache_clearing_on_clear
        test_save_load_json_preserves_max_age_deadline test_save_load_json_preserves_expires_deadline""",
    "a file is the agent's, and never a pickle": """test_load_rejects_malicious_pickle test_load_rejects_eval_payload
        test_load_rejects_subprocess_payload test_save_load_json_drops_expired_cookie test_load_json_old_format_without_new_keys
        test_json_format_is_safe test_save_preserves_existing_cookie_file_permissions""",
    "a cookie without an expiry ends with the session, and isn't saved (RFC 6265bis, Storage Model)":
        """test_save_load_json_partitioned_cookies test_save_load_json_preserves_host_only_scope
        test_save_load_json_domain_cookie_still_matches_subdomain test_save_load_json_secure_cookies""",
    "a host that is an IP address has cookies (RFC 6265bis, Domain Matching)":
        "test_domain_filter_ip_cookie_receive test_cookie_jar_unsafe_property",
    SECURE: "test_update_cookies_from_headers",
    "a comma in a name is stored, and nothing is logged (RFC 6265bis, The Set-Cookie Header Field)":
        "test_update_cookies_from_headers_invalid_cookies",
    "`example.com.` isn't the domain of `www.example.com`: the cookie is refused (RFC 6265bis, Storage Model)":
        "test_ignore_domain_ending_with_dot",
    "a URL is a `yarl.URL`": "test_filter_cookies_str_deprecated",
}


class Suite(NamedTuple):
    """Others' tests: whose they are, of which source package and suite of Debian's, in which files, and why some aren't
    shared."""

    name: str
    package: str
    debian: str | None
    files: tuple[str, ...]
    reasons: dict[str, str]


SUITES = {
    "http.cookiejar": Suite("CPython", "python3.11", None, ("Lib/test/test_http_cookiejar.py",), CPYTHON),
    "httpx": Suite("httpx", "httpx", "trixie", ("tests/client/test_cookies.py", "tests/models/test_cookies.py"), HTTPX),
    "aiohttp": Suite("aiohttp", "python-aiohttp", "sid", ("tests/test_cookiejar.py",), AIOHTTP),
}


def sources_of(package, folder, suite=None):
    """The file of the sources of a package of Debian's, which apt-get checks. They are those of a suite, by default the
    installed one. A mirror may lack the files of Debian's own changes, which aren't needed."""
    suite = suite or re.search(r"^VERSION_CODENAME=(.*)$", Path("/etc/os-release").read_text(), re.M)[1]
    (folder / "sources").mkdir(parents=True)
    apt = try_python.apt_of(folder, suite, "deb-src")
    subprocess.run([*apt, "source", "--download-only", package], cwd=folder / "sources")
    packed = [path for path in (folder / "sources").glob("*.orig.tar.*") if path.suffix != ".asc"]
    if not packed:
        sys.exit(f"{package}: the mirror has no sources in {suite}")
    return packed[0]


def packed_of(package, folder, sources, suite=None):
    """The file of the package's sources, in the folder that was named, or else by apt-get."""
    if sources is None:
        return sources_of(package, folder, suite)
    packed, = sources.glob(f"{package}_*.orig.tar.?z")
    return packed


def django_tests(folder, sources):
    """The folder `tests` of the sources of Debian's Django."""
    with tarfile.open(packed_of("python-django", folder, sources)) as archive:
        archive.extractall(folder / "unpacked", [entry for entry in archive if "/tests/sessions_tests/" in entry.name])
    (tests,) = (folder / "unpacked").glob("*/tests")
    return tests


def files_of(suite, folder, sources=None):
    """The version of the sources, and the files of tests in them, which apt-get has checked, or which are in a folder."""
    packed, found = packed_of(suite.package, folder, sources, suite.debian), []
    with tarfile.open(packed) as archive:
        entries = {entry.name.partition("/")[2]: entry for entry in archive if entry.isfile()}
        for name in suite.files:
            path = folder / name.replace("/", "_")
            path.write_bytes(archive.extractfile(entries[name]).read())
            found.append(path)
    return re.search(r"_([\d.]+)\.orig", packed.name)[1], found


def play_django(python, tests):
    """Plays Django's tests. Returns the row of the first table, and the rows of the second."""
    rows = rows_of(python, "Django", DJANGO_TESTS=str(tests))
    wrong, others = [row for row in rows if not row["is_right"]], [row for row in rows if row["reason"]]
    check(f"Django: {len(rows)} tests", len(rows) > 10 and not wrong, wrong)
    version = subprocess.run([python, "-c", "import django; print(django.__version__)"], capture_output=True, text=True)
    line = f"| Django {version.stdout.strip()} | {len(rows)}, as they are | {len(rows) - len(wrong) - len(others)} | {len(others)} |"
    return line, [f"| Django | `{row['name']}` | {row['reason']} |" for row in others]


def play_suite(python, kind, version, files):
    """Plays the files with our jar. Returns the row of the first table, and the rows of the second."""
    suite, rows = SUITES[kind], rows_of(python, kind, *files)
    reasons = {name: reason for reason, names in suite.reasons.items() for name in names.split()}
    wrong = [row for row in rows if not row["is_right"]]
    check(f"{suite.name}: {len(rows)} tests make a jar", len(rows) > 10)
    unsaid = {base_of(row["name"]): row["told"] for row in wrong if base_of(row["name"]) not in reasons}
    unsaid.update({name: "it passes" for name in reasons.keys() - {base_of(row["name"]) for row in wrong}})
    check("each that doesn't pass has its reason", not unsaid, "\n".join(f"{name}: {told[-300:]}" for name, told in unsaid.items()))
    others = {}
    for row in wrong:
        others.setdefault(reasons.get(base_of(row["name"])), []).append(row["name"])
    title = f"{suite.name} {version}" if suite.name == kind else f"{suite.name} {version}, {kind}"
    line = f"| {title} | {len(rows)}, as they are | {len(rows) - len(wrong)} | {len(wrong)} |"
    if kind == "aiohttp":
        without = {row["name"] for row in rows_of(python, kind, *files, HOSTLESS="no") if row["is_right"]}
        saved = without.intersection(others[HOSTLESS])
        others[f"{HOSTLESS}. Without this cookie {len(saved)} of them pass"] = others.pop(HOSTLESS)
    return line, [f"| {suite.name} | {shown(found)} | {reason} |" for reason, found in sorted(others.items(), key=size)]


def base_of(name):
    """The name of a test without its arguments."""
    return name.partition("[")[0]


def size(group):
    """The largest groups come first."""
    return -len(group[1])


def rows_of(python, kind, *files, **variables):
    """What came of each test, of the files if there are any."""
    rows = []
    for paths in [[path] for path in files] or [[]]:
        environment = {**os.environ, "PYTHONDONTWRITEBYTECODE": "1", **variables}
        done = subprocess.run([python, HERE / "players.py", kind, *paths], env=environment, capture_output=True, text=True)
        if not done.stdout:
            sys.exit(f"{kind} doesn't run\n{done.stderr}")
        rows += json.loads(done.stdout.splitlines()[-1])
    return rows


def shown(names):
    """The names of tests, the first of them if they are many."""
    quoted = [f"`{name}`" for name in dict.fromkeys(map(base_of, names))]
    return ", ".join(quoted) if len(names) < 5 else f"{len(names)}, such as {quoted[0]} and {quoted[1]}"


def main():
    parser = argparse.ArgumentParser(prog="tests/play suites", description="Plays others' tests with the package.")
    parser.add_argument("--wheel", type=Path, help="the wheel of the package; without it tools/install makes it")
    parser.add_argument("--sources", type=Path, help="a folder with Debian's sources of the tests; without it apt-get gets them")
    words = parser.parse_args()
    with tempfile.TemporaryDirectory(prefix="play-suites-") as folder:
        folder = Path(folder)
        python = environment_of(words, folder, PACKAGES, try_python.PROGRAMS)
        played = [play_django(python, django_tests(folder / "django", words.sources))]
        for kind, suite in SUITES.items():
            (folder / kind).mkdir()
            played.append(play_suite(python, kind, *files_of(suite, folder / kind, words.sources)))
        for line, whys in played:
            for row in (line, *whys):
                print(row)
                check("the page has this row", row in PAGE.read_text().splitlines())
    end()


if __name__ == "__main__":
    main()
