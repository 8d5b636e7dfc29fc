"""Chromium, as the plays drive it."""

import fcntl
import json
import os
import subprocess


class Chromium:
    """A headless Chromium, driven over its debugging pipe."""

    def __init__(self, profile, *flags):
        to_browser, self.write_end = os.pipe()
        self.read_end, from_browser = os.pipe()
        # the browser reads commands from descriptor 3 and writes answers to 4
        ends = [fcntl.fcntl(end, fcntl.F_DUPFD, 20) for end in (to_browser, from_browser)]
        words = ["chromium", "--headless=new", "--no-sandbox", "--disable-gpu", "--remote-debugging-pipe"]
        words += [f"--user-data-dir={profile}", *flags]
        self.process = subprocess.Popen(
            ["bash", "-c", f'exec "$@" 3<&{ends[0]} 4>&{ends[1]}', "bash", *words],
            stdout=subprocess.DEVNULL,
            stderr=subprocess.DEVNULL,
            pass_fds=ends,
        )
        for end in (*ends, to_browser, from_browser):
            os.close(end)
        self.rest, self.number, self.session, self.loads = b"", 0, None, 0
        target = self.call("Target.createTarget", url="about:blank")["targetId"]
        self.session = self.call("Target.attachToTarget", targetId=target, flatten=True)["sessionId"]
        self.call("Page.enable")

    def message(self):
        while b"\0" not in self.rest:
            got = os.read(self.read_end, 65536)
            if not got:
                raise OSError("Chromium ended")
            self.rest += got
        text, _, self.rest = self.rest.partition(b"\0")
        message = json.loads(text)
        if message.get("method") == "Page.loadEventFired":
            self.loads += 1
        return message

    def call(self, method, **parameters):
        self.number += 1
        command = {"id": self.number, "method": method, "params": parameters}
        if self.session:
            command["sessionId"] = self.session
        os.write(self.write_end, json.dumps(command).encode() + b"\0")
        while True:
            message = self.message()
            if message.get("id") == self.number:
                if "error" in message:
                    raise OSError(f"{method}: {message['error']}")
                return message["result"]

    def loaded(self, method, **parameters):
        """Makes the call, and waits for the page that it leads to."""
        before = self.loads
        self.call(method, **parameters)
        while self.loads == before:
            self.message()
        return self.page()

    def go(self, url):
        return self.loaded("Page.navigate", url=url)

    def click(self, script):
        """Does what the script says, and waits for the page."""
        return self.loaded("Runtime.evaluate", expression=script)

    def post(self, url, **fields):
        """Sends a form of the page that is shown, with these fields."""
        return self.click(f"""
            const form = document.createElement("form");
            form.method = "post";
            form.action = {json.dumps(url)};
            for (const [name, value] of Object.entries({json.dumps(fields)})) {{
                form.append(Object.assign(document.createElement("input"), {{ name, value }}));
            }}
            document.body.append(form);
            form.submit();""")

    def page(self):
        return self.call("Runtime.evaluate", expression="document.documentElement.outerHTML")["result"]["value"]

    def cookies(self):
        return {cookie["name"]: cookie for cookie in self.call("Network.getCookies")["cookies"]}

    def set_cookie(self, base, name, value):
        self.call("Network.setCookie", name=name, value=value, url=base, path="/", secure=True, httpOnly=True)

    def forget(self):
        """Drops every cookie."""
        self.call("Network.clearBrowserCookies")

    def end(self):
        self.session = None
        os.write(self.write_end, json.dumps({"id": 0, "method": "Browser.close"}).encode() + b"\0")
        try:
            self.process.wait(10)
        except subprocess.TimeoutExpired:
            self.process.kill()
