"""The desk's page over a generated day, and what a script does on it: press, choose, fill, and wait until something holds."""
from __future__ import annotations

import http.client
import json
import os
import secrets
import shlex
import subprocess
import time
from typing import Callable, Optional

from dispatch_tools.days.generated import write_day
from dispatch_tools.desk.control import Control
from dispatch_tools.dev.browser import Browser
from dispatch_tools.formats.names import in_print
from dispatch_tools.here import words_of
from dispatch_tools.live.serving import Server

# The seconds after which something counts as missing.
PATIENCE = 60.0

# Who has the token.
NAME = 'Anna'


class Wrong(Exception):
    """The page does not do what it should."""


class Desk:
    """A day in a folder, its server and its page."""

    def __init__(self, program: str, folder: str, trains: int, pictures: Optional[str] = None) -> None:
        self.program, self.folder, self.pictures = program, folder, pictures
        write_day(7, trains, folder)
        self.net = os.path.join(folder, 'net')
        self.store = os.path.join(folder, 'store')
        self.feeds = [os.path.join(folder, name) for name in ('others', 'own')]
        self.token = secrets.token_urlsafe(16)
        with open(os.open(os.path.join(folder, 'token'), os.O_WRONLY | os.O_CREAT, 0o600), 'w', encoding='ascii') as file:
            file.write(f'{self.token}\n{NAME}\n')
        self.server = Server(program, self.net, self.store, self.feeds, ['--plans=100'])
        self.page: Optional[subprocess.Popen[str]] = None
        self.port = 0
        self.start = os.path.join(folder, 'start')
        with open(self.start, 'w', encoding='utf-8') as file:
            text, said = map(shlex.quote, (self.server.text, self.server.said))
            file.write(f'exec {shlex.join(self.server.words("serve"))} > {text} 2> {said}\n')

    def name(self, file: str, names: dict[int, str]) -> None:
        """Gives the network a file of names."""
        with open(os.path.join(self.net, file), 'w', encoding='utf-8', newline='') as into:
            into.write(in_print(['id', 'name'], names.items()))

    def open(self, *words: str) -> None:
        command = [*words_of('desk'), self.net, self.store, self.feeds[1], '--feed=2', '--port=0',
                   f'--program={self.program}', f'--start={shlex.join(["sh", self.start])}', *words]
        self.page = subprocess.Popen(command, stdout=subprocess.PIPE, text=True)
        assert self.page.stdout is not None
        self.port = int(self.page.stdout.readline().rstrip('/\n').rsplit(':', 1)[1])

    @property
    def address(self) -> str:
        return f'http://127.0.0.1:{self.port}/'

    def tell(self, *lines: str) -> None:
        """Appends lines to the feed of another source."""
        self.server.append(0, lines)

    def close(self) -> None:
        self.server.kill()
        self.end_server()
        if self.page is not None:
            self.page.terminate()
            self.page.wait()

    def end_server(self) -> None:
        """Ends the server that the page has started, if one runs."""
        control = Control(self.store, [])
        if control.runs():
            control.close()
            until_so(lambda: not control.runs(), 'the server that the page has started does not end')
            control.look()

    def keep_picture(self, browser: Browser, name: str) -> None:
        """Keeps a picture of the page, if somebody wants pictures."""
        if self.pictures is not None:
            os.makedirs(self.pictures, exist_ok=True)
            with open(os.path.join(self.pictures, f'{name}.png'), 'wb') as file:
                file.write(browser.picture())

    def ask(self, method: str, path: str, body: bytes = b'', **headers: str) -> tuple[int, str]:
        """The status and the text of the answer to a request that no page makes."""
        line = http.client.HTTPConnection('127.0.0.1', self.port, timeout=PATIENCE)
        line.putrequest(method, path, skip_host='Host' in headers)
        given = {'Content-Length': str(len(body)), 'Content-Type': 'application/json', **headers} if method == 'POST' else headers
        for name, value in given.items():
            line.putheader(name.replace('_', '-'), value)
        try:
            line.endheaders(body or None)
        except (ConnectionError, BrokenPipeError):
            pass
        answer = line.getresponse()
        words = answer.read(65_536).decode(errors='replace') if answer.getheader('Content-Type') != 'text/event-stream; charset=utf-8' else ''
        line.close()
        return answer.status, words


def until_so(is_so: Callable[[], object], what: str) -> None:
    """Waits until something is so beside the page."""
    ends = time.monotonic() + PATIENCE
    while not is_so():
        if time.monotonic() > ends:
            raise Wrong(what)
        time.sleep(0.05)


def until(browser: Browser, expression: str, what: str) -> float:
    """Waits until something holds on the page; the seconds that it took."""
    began = time.monotonic()
    while not browser.value(expression):
        if time.monotonic() - began > PATIENCE:
            raise Wrong(f'{what}: {expression}')
        time.sleep(0.01)
    return time.monotonic() - began


def text(selector: str) -> str:
    return f'(document.querySelector({json.dumps(selector)})?.textContent ?? "")'


def has(selector: str, words: str) -> str:
    return f'{text(selector)}.includes({json.dumps(words)})'


def press(browser: Browser, label: str) -> None:
    """Presses the button with this label, or whose name for a screen reader begins with it."""
    browser.value(f'''[...document.querySelectorAll('button')].find(one => one.textContent === {json.dumps(label)}
        || (one.getAttribute('aria-label') || '').startsWith({json.dumps(label)})).click()''')


def choose(browser: Browser, name: str, value: object) -> None:
    browser.value(f'''(one => {{ one.value = {json.dumps(value)}; one.dispatchEvent(new Event('change')); }})
        (document.getElementById({json.dumps(name)}))''')


def fill(browser: Browser, name: str, value: object) -> None:
    browser.value(f'document.getElementById({json.dumps(name)}).value = {json.dumps(value)}')


def visit(browser: Browser, desk: Desk, token: bool = True) -> float:
    """Opens the page; the seconds until its first picture is whole."""
    began = time.monotonic()
    browser.visit(desk.address)
    until(browser, "!!document.querySelector('#view svg') && !!document.querySelector('#train table')", 'the first picture')
    took = time.monotonic() - began
    if token:
        fill(browser, 'token', desk.token)
        press(browser, 'Use')
        until(browser, "!document.getElementById('tell').hidden", 'the token is taken')
    return took
