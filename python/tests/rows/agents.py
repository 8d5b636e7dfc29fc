"""A user agent."""
from deomigal import _library as library
from deomigal.addresses import Address
from deomigal.agents import Agent, AgentCookie
from deomigal.errors import NotFound
from deomigal.explain import request_of

from .browser import HOWS, LIST, address_of
from .player import Player
from .rowfile import unescaped
from .sessions import FIRST

# The first line of a cookies.txt, and the numbers of the forms.
HEAD, COOKIES_TXT, JSON_LINES = b"# Netscape HTTP Cookie File\n", 0, 1
# The obstacles, by their numbers.
OBSTACLES = {"Expired": 1, "Host": 2, "Path": 4, "Connection": 8, "SameSite": 16}


def shown(text):
    return text or b"-"


class Agents(Player):
    """Plays the rows on a user agent, and on the request that is made next."""

    def __init__(self, calls):
        super().__init__(calls)
        self.agent, self.now, self.how = Agent(LIST), FIRST, "get"
        self.url = "http://example.com/"

    def address(self):
        return address_of(self.url, self.how)

    def on_on(self, step):
        self.url, self.how = step.words, "get"

    def on_by(self, step):
        self.how = step.words

    def on_at(self, step):
        self.now = FIRST + int(step.words)

    def read(self, agent, address, text):
        """The answer of an agent that reads the text: None, or its refusal."""
        refusal = agent.read_at(address, text, self.now)
        return f"refused {refusal.step}".encode() if refusal else None

    def on_set(self, step):
        return self.read(self.agent, self.address(), unescaped(step.words))

    def on_retrieve(self, step):
        return shown(self.agent.header_at(self.address(), HOWS[self.how][2], self.now))

    def on_header(self, step):
        return shown(self.agent.header_at(self.address(), HOWS[self.how][2], self.now, library.AGENT_HEADER))

    def on_remove(self, step):
        kept = AgentCookie(step.words, "", self.address().host.lower(), "/", None, None, True, False, False)
        return b"yes" if self.agent.remove(kept) else b"no"

    def on_clear(self, step):
        self.agent.clear(step.words)

    def on_evict(self, step):
        self.agent.handle.perform(library.AGENT_EVICT, self.now)

    def on_trim(self, step):
        """Without a limit of a site that of all is the limit."""
        numbers = [int(number) for number in step.words.split()]
        numbers[1:1] = numbers[1:] if len(numbers) == 2 else []
        self.agent.handle.perform(library.AGENT_TRIM, self.agent.rules, *numbers, self.now)

    def load(self, agent, form, text):
        words = agent.handle, agent.rules, form, text, len(text), *agent.limits, self.now, None, 0
        library.checked(library.AGENT_LOAD(*words))

    def saved(self, agent, form):
        """What is saved of the agent, without the first line of a cookies.txt."""
        saving, text = library.answer_and_bytes(library.AGENT_SAVE, agent.handle, form, self.now)
        library.checked(saving)
        head = HEAD if form == COOKIES_TXT else b""
        assert text.startswith(head)
        return shown(text.removeprefix(head))

    def on_load(self, step):
        self.load(self.agent, COOKIES_TXT, unescaped(step.words))

    def on_saved(self, step):
        return self.saved(self.agent, COOKIES_TXT)

    def loaded(self, form, text):
        agent = Agent(LIST)
        self.load(agent, form, text)
        return self.saved(agent, form)

    def on_loaded(self, step):
        return self.loaded(COOKIES_TXT, unescaped(step.words))

    def on_loaded_json(self, step):
        return self.loaded(JSON_LINES, unescaped(step.words))

    def on_obstacles(self, step):
        request = request_of(self.address(), HOWS[self.how][2])
        answer = library.AGENT_OBSTACLES(self.agent.handle, int(step.words), request, self.now)
        if step.wanted == "no cookie":
            return NotFound.status, answer.status
        bits = library.checked(answer).obstacles
        return " ".join(word for word, bit in OBSTACLES.items() if bits & bit).encode() or b"-"

    # Questions on a cookie that a new agent stores.

    def scope(self, address, text):
        """The scope of the cookie, or why it is refused."""
        agent = Agent(LIST)
        refusal = self.read(agent, address, text)
        if refusal:
            return refusal
        kept = next(agent.cookies(self.now))
        return f"{'host' if kept.is_host_only else 'domain'} {kept.domain} {kept.path}".encode()

    def is_sent(self, at, text, to):
        """Whether a request sends the cookie."""
        agent = Agent(LIST)
        assert self.read(agent, at, text) is None
        return b"yes" if agent.header_at(to, True, self.now, library.AGENT_HEADER) else b"no"

    def on_scope(self, step):
        return self.scope(self.address(), unescaped(step.words))

    def on_folder(self, step):
        return self.scope(Address("a.com", step.words, False, False), b"n=1")

    def on_reached(self, step):
        return self.is_sent(address_of("http://www.example.com/a/b", "get"), unescaped(step.words), self.address())

    def on_path(self, step):
        path, _, kept = step.words.partition(" | ")
        at, to = (Address("a.com", of, False, False) for of in ("/", path))
        return self.is_sent(at, b"n=1; Path=" + kept.encode(), to)

    def on_domain(self, step):
        host, _, domain = step.words.partition(" | ")
        is_address = step.call == "address"
        text = b"n=1; Path=/; Domain=" + domain.encode()
        return self.is_sent(Address(domain, "/", is_address, False), text, Address(host, "/", is_address, False))

    on_address = on_domain
