"""The clients, each with an agent. `ask` makes a request, follows its redirects, and reads the whole response.

Each imports what it `needs`, so that a test of the others runs without that."""
import asyncio
import ssl
import urllib.request

from deomigal import cookiejar
from deomigal.agents import SAME_SITE


class Requests:
    """requests with `session_of`"""

    needs = "requests"

    def __init__(self, agent, certificate):
        from deomigal.requests import session_of

        self.session = session_of(agent)
        self.part = self.session.get_adapter("https://")
        self.session.trust_env, self.session.verify = False, certificate

    def ask(self, url, method="GET", context=SAME_SITE):
        self.part.context = context
        return self.session.request(method, url).status_code

    def close(self):
        self.session.close()


class Httpx:
    """httpx with `cookies_of`"""

    needs = "httpx"

    def __init__(self, agent, certificate):
        import httpx
        from deomigal.httpx import cookies_of

        made = cookies_of(agent, httpx.HTTPTransport(verify=certificate))
        self.part = made["transport"]
        self.client = httpx.Client(follow_redirects=True, **made)

    def ask(self, url, method="GET", context=SAME_SITE):
        self.part.context = context
        return self.client.request(method, url).status_code

    def close(self):
        self.client.close()


class Looped:
    """A client in a loop of its own."""

    def __init__(self, agent, certificate):
        self.loop = asyncio.new_event_loop()
        self.loop.run_until_complete(self.open(agent, certificate))

    def ask(self, *words, **named):
        return self.loop.run_until_complete(self.asked(*words, **named))

    def close(self):
        self.loop.run_until_complete(self.closed())
        self.loop.close()


class AsyncHttpx(Looped):
    """httpx with `async_cookies_of`"""

    needs = "httpx"

    async def open(self, agent, certificate):
        import httpx
        from deomigal.httpx import async_cookies_of

        made = async_cookies_of(agent, httpx.AsyncHTTPTransport(verify=certificate))
        self.part = made["transport"]
        self.client = httpx.AsyncClient(follow_redirects=True, **made)

    async def asked(self, url, method="GET", context=SAME_SITE):
        self.part.context = context
        return (await self.client.request(method, url)).status_code

    async def closed(self):
        await self.client.aclose()


class Aiohttp(Looped):
    """aiohttp with `cookies_of`"""

    needs = "aiohttp"

    async def open(self, agent, certificate):
        import aiohttp
        from deomigal.aiohttp import cookies_of

        made = cookies_of(agent)
        self.part = made["cookie_jar"]
        context = ssl.create_default_context(cafile=certificate)
        self.refusal = aiohttp.ClientResponseError
        self.session = aiohttp.ClientSession(connector=aiohttp.TCPConnector(ssl=context), **made)

    async def asked(self, url, method="GET", context=SAME_SITE):
        self.part.context = context
        try:
            async with self.session.request(method, url) as response:
                await response.read()
                return response.status
        except self.refusal as error:
            # It refuses a whole response whose fields hold a control character.
            return error.status

    async def closed(self):
        await self.session.close()


class Urllib:
    """urllib.request with `CookieJar`"""

    needs = "urllib.request"

    def __init__(self, agent, certificate):
        self.part = cookiejar.CookieJar(agent)
        self.opener = urllib.request.build_opener(
            urllib.request.ProxyHandler({}), urllib.request.HTTPCookieProcessor(self.part),
            urllib.request.HTTPSHandler(context=ssl.create_default_context(cafile=certificate)),
        )

    def ask(self, url, method="GET", context=SAME_SITE):
        self.part.context = context
        with self.opener.open(urllib.request.Request(url, method=method)) as response:
            response.read()
            return response.status

    def close(self):
        self.opener.close()


class Mechanize:
    """mechanize with `CookieJar`"""

    needs = "mechanize"

    def __init__(self, agent, certificate):
        import mechanize

        self.request = mechanize.Request
        self.part, self.browser = cookiejar.CookieJar(agent), mechanize.Browser()
        self.browser.set_cookiejar(self.part)
        self.browser.set_handle_robots(False)
        self.browser.set_proxies({})
        self.browser.set_ca_data(cafile=certificate)

    def ask(self, url, method="GET", context=SAME_SITE):
        self.part.context = context
        response = self.browser.open(self.request(url, method=method))
        response.read()
        return response.code

    def close(self):
        self.browser.close()


CLIENTS = (Requests, Httpx, AsyncHttpx, Aiohttp, Urllib, Mechanize)
