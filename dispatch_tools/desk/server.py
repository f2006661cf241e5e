"""The page's server: a few fixed addresses, a stream of what changes, and lines that are taken.

No part of an address becomes the name of a file. Requests and connections are bounded (http_server.py), and so are streams. Some
places are kept for who has the token.
"""
from __future__ import annotations

import json
import os
import re
import socket
import sys
import threading
from contextlib import ExitStack
from typing import Any, Callable, Optional
from urllib.parse import parse_qs, urlsplit

from dispatch_tools.desk.handover import handover
from dispatch_tools.desk.only import Only, screen_only
from dispatch_tools.desk.pictures import Asked
from dispatch_tools.desk.rights import LONGEST_BODY, Rights
from dispatch_tools.desk.room import Doubted, Refused, Room
from dispatch_tools.desk.screen import board_of, description, train_of
from dispatch_tools.formats.files import BadFile
from dispatch_tools.formats.markup import policy
from dispatch_tools.live.http_server import Asks, BoundedHandler, BoundedServer
from dispatch_tools.pictures.style import style

WEB = os.path.join(os.path.dirname(os.path.abspath(__file__)), 'web')
FILES = {'/': ('desk.html', 'text/html'), '/desk.css': ('desk.css', 'text/css'), '/desk.js': ('desk.js', 'text/javascript'),
         '/seen.js': ('seen.js', 'text/javascript'), '/done.js': ('done.js', 'text/javascript'), '/parts.js': ('parts.js', 'text/javascript')}

# At most so many pages have a stream, of which so many are kept for who has the token. A stream without news sends a word every so
# many seconds.
MOST_STREAMS, KEPT_STREAMS, BEAT = 24, 8, 10.0

# An address has so many fields at most.
MOST_FIELDS = 8

SVG = 'image/svg+xml; charset=utf-8'

# A picture shows so many seconds at most.
LONGEST_VIEW = 200_000

# The style in a picture of waiting rules is its own.
PICTURE_STYLE = re.compile('<style>(.*?)</style>')


class PageServer(BoundedServer):
    """A server of one room."""

    def __init__(self, address: tuple[str, int], room: Room, rights: Rights) -> None:
        self.room, self.rights = room, rights
        self.streams = threading.BoundedSemaphore(MOST_STREAMS)
        self.unknown_streams = threading.BoundedSemaphore(MOST_STREAMS - KEPT_STREAMS)
        self.works = threading.Lock()
        self.was_typed = threading.Event()
        self.files = {path: (read_web(name), kind) for path, (name, kind) in FILES.items()}
        self.described = json.dumps(description(room), separators=(',', ':')).encode()
        super().__init__(address, Handler)


def read_web(name: str) -> bytes:
    with open(os.path.join(WEB, name), 'rb') as file:
        return file.read()


def page_policy() -> str:
    """What the page may load and run: its own files alone, and the style of its pictures."""
    styles = next(part for part in policy([], [style()]).split('; ') if part.startswith('style-src')).removeprefix('style-src ')
    return ("default-src 'none'; script-src 'self'; style-src 'self' " + styles + "; connect-src 'self'; img-src data:; base-uri 'none'; "
            "form-action 'none'; frame-ancestors 'none'")


POLICY = page_policy()


class Handler(BoundedHandler):
    server: PageServer
    server_version = 'desk'
    headers_of_all = [('Content-Security-Policy', POLICY), ('X-Content-Type-Options', 'nosniff'), ('Referrer-Policy', 'no-referrer'),
                      ('Cache-Control', 'no-store'), ('Cross-Origin-Resource-Policy', 'same-origin')]

    def is_known(self) -> bool:
        return self.server.rights.has_token(self.headers)  # type: ignore[arg-type]

    def answer(self, answer: Callable[[], None]) -> None:
        try:
            super().answer(answer)
        except Doubted as doubted:
            self.send_json({'asks': doubted.words, 'agreed': doubted.entries})
        except Refused as refused:
            self.send_json({'error': str(refused)}, 409)
        except BadFile as fault:
            print(f'desk: {fault}', file=sys.stderr, flush=True)
            self.send_json({'error': fault.without_paths()}, 409)

    def do_GET(self) -> None:
        self.answer(self.get)

    def do_POST(self) -> None:
        self.answer(self.post)

    def demand_rights(self) -> None:
        refusal = self.server.rights.refusal(self.headers)  # type: ignore[arg-type]
        if refusal is not None:
            raise Asks(403, refusal)

    def send_json(self, value: object, status: int = 200) -> None:
        self.send(json.dumps(value, separators=(',', ':')).encode(), 'application/json; charset=utf-8', status)

    # ---- What is shown

    def get(self) -> None:
        self.demand_rights()
        try:
            parts = urlsplit(self.path)
            words = parse_qs(parts.query, max_num_fields=MOST_FIELDS)
        except ValueError as error:
            raise Asks(400, f'this address has another form, or more than {MOST_FIELDS} fields') from error
        if parts.path in self.server.files:
            data, kind = self.server.files[parts.path]
            self.send(data, f'{kind}; charset=utf-8')
            return
        answer = {'/day': self.get_day, '/events': self.get_events, '/line': self.get_line, '/board': self.get_board,
                  '/train': self.get_train, '/plan': self.get_plan, '/only': self.get_only,
                  '/handover': self.get_handover}.get(parts.path)
        if answer is None:
            raise Asks(404, 'there is nothing under this address')
        answer(words)

    def whole(self, words: dict[str, list[str]], name: str, most: int) -> Optional[int]:
        """A whole number below a limit among the words of an address; None if it is not there."""
        given = words.get(name, [''])[0]
        if not given:
            return None
        if not re.fullmatch('[0-9]{1,10}', given) or int(given) >= most:
            raise Asks(400, f'{name} is no number below {most}')
        return int(given)

    def number(self, words: dict[str, list[str]], name: str, most: int) -> int:
        number = self.whole(words, name, most)
        if number is None:
            raise Asks(400, f'{name} is missing')
        return number

    def get_day(self, words: dict[str, list[str]]) -> None:
        self.send(self.server.described, 'application/json; charset=utf-8')

    def get_line(self, words: dict[str, list[str]]) -> None:
        room = self.server.room
        line = self.number(words, 'line', len(room.pictures.lines))
        begin, end = (self.whole(words, name, 2 ** 32) for name in ('from', 'to'))
        if (begin is None) != (end is None) or begin is not None and end is not None and not 0 < end - begin <= LONGEST_VIEW:
            raise Asks(400, f'a line is shown whole, or from one time to another at most {LONGEST_VIEW} s later')
        picture = room.draw(Asked(line, begin, end, bool(self.whole(words, 'plan', 2))))
        self.send(picture.svg.encode(), SVG, more=[('X-Frame', picture.frame)])

    def get_board(self, words: dict[str, list[str]]) -> None:
        with self.server.room.changed:
            board = board_of(self.server.room, self.number(words, 'stop', 2 ** 32))
        self.send_json(board)

    def get_train(self, words: dict[str, list[str]]) -> None:
        day = self.server.room.day
        number = self.number(words, 'train', len(day.trains))
        with self.server.room.changed:
            train = train_of(day, number)
        self.send_json(train)

    def get_plan(self, words: dict[str, list[str]]) -> None:
        with self.server.room.changed:
            found = self.server.room.effect
        self.send_json(found.found if found else None)

    def get_only(self, words: dict[str, list[str]]) -> None:
        room = self.server.room
        only = Only(self.whole(words, 'line', len(room.pictures.lines)), self.whole(words, 'stop', 2 ** 32))
        with room.changed:
            screen = screen_only(room, only)
        self.send_json(screen)

    def get_handover(self, words: dict[str, list[str]]) -> None:
        with self.server.room.changed:
            page = handover(self.server.room)
        self.send(page.encode(), 'text/html; charset=utf-8')

    def get_events(self, words: dict[str, list[str]]) -> None:
        """The picture of the screen, at once and whenever it changes."""
        with ExitStack() as places:
            for streams in [self.server.streams] if self.is_known() else [self.server.unknown_streams, self.server.streams]:
                if not streams.acquire(blocking=False):
                    raise Asks(503, 'too many pages are open')
                places.callback(streams.release)
            self.close_connection = True
            self.send_head('text/event-stream; charset=utf-8')
            self.connection.setsockopt(socket.IPPROTO_TCP, socket.TCP_NODELAY, 1)
            self.stream(self.server.room)

    def stream(self, room: Room) -> None:
        seen = -1
        while not room.stopped.is_set():
            with room.changed:
                if room.number == seen:
                    room.changed.wait(BEAT)
                seen, was, screen = room.number, seen, room.screen
            self.wfile.write(b'data: ' + screen + b'\n\n' if seen != was else b': still here\n\n')

    # ---- What is taken

    def post(self) -> None:
        self.demand_rights()
        refusal = self.server.rights.refusal_to_tell(self.headers)  # type: ignore[arg-type]
        if refusal is not None:
            raise Asks(403, refusal)
        take = {'/tell': self.post_tell, '/undo': self.post_undo, '/see': self.post_see, '/carry': self.post_carry, '/cancel': self.post_cancel, '/hold': self.post_hold, '/adopt': self.post_adopt,
                '/window': self.post_window, '/rules': self.post_rules, '/close': self.post_close, '/start': self.post_start,
                '/token': self.post_token}.get(self.path)
        if take is None:
            raise Asks(404, 'nothing is taken at this address')
        take(self.asked())

    def asked(self) -> dict[str, Any]:
        """The object in the body of a request."""
        if self.headers.get_content_type() != 'application/json':
            raise Asks(415, 'a body is JSON')
        try:
            value = json.loads(self.body(LONGEST_BODY))
        except (ValueError, RecursionError) as error:
            raise Asks(400, 'the body is no JSON') from error
        if not isinstance(value, dict):
            raise Asks(400, 'the body is no object')
        return value

    def post_token(self, asked: dict[str, Any]) -> None:
        if not self.server.was_typed.is_set():
            self.server.was_typed.set()
            print('the token was typed', flush=True)
        self.send_json({})

    def post_tell(self, asked: dict[str, Any]) -> None:
        self.send_json({'line': self.server.room.tell(asked.get('kind'), asked.get('numbers'), asked.get('agreed'))})

    def post_undo(self, asked: dict[str, Any]) -> None:
        undone = self.server.room.undo(asked.get('line'), asked.get('agreed'))
        self.send_json(undone._asdict())

    def post_see(self, asked: dict[str, Any]) -> None:
        self.server.room.see(asked.get('kind'), asked.get('key'))
        self.send_json({})

    def post_carry(self, asked: dict[str, Any]) -> None:
        self.send_json({'line': self.server.room.carry(asked.get('plan'), asked.get('agreed'))})

    def post_cancel(self, asked: dict[str, Any]) -> None:
        self.send_json({'line': self.server.room.cancel(asked.get('train'), asked.get('part'), asked.get('event'), asked.get('agreed'))})

    def post_hold(self, asked: dict[str, Any]) -> None:
        self.send_json({'line': self.server.room.hold(asked.get('kind'), asked.get('numbers'))})

    def post_adopt(self, asked: dict[str, Any]) -> None:
        self.send_json({'line': self.server.room.adopt(asked.get('plan'))})

    def post_close(self, asked: dict[str, Any]) -> None:
        self.server.room.close(asked.get('agreed'))
        self.send_json({})

    def post_start(self, asked: dict[str, Any]) -> None:
        with self.alone():
            self.server.room.start_server()
        self.send_json({})

    def post_window(self, asked: dict[str, Any]) -> None:
        begin, end, budget = (whole_of(asked, name, least, most) for name, least, most in
                              (('from', 0, 10 ** 9), ('to', 0, 10 ** 9), ('budget', 1, 16_384)))
        held = asked.get('held', [])
        if not isinstance(held, list) or any(type(one) is not int or not 0 <= one < 2 ** 32 for one in held) or len(set(held)) != len(held):
            raise Asks(400, 'held is no list of activities')
        if end < begin:
            raise Asks(400, 'the time to which is before that from which')
        with self.alone():
            self.send_json(self.server.room.window(begin, end, budget, held))

    def post_rules(self, asked: dict[str, Any]) -> None:
        with self.alone():
            self.send(PICTURE_STYLE.sub('', self.server.room.rules()).encode(), SVG)

    def alone(self) -> threading.Lock:
        """Of the questions that take long, one is asked at a time."""
        if self.server.works.locked():
            raise Asks(429, 'another question is being worked on')
        return self.server.works


def whole_of(asked: dict[str, Any], name: str, least: int, most: int) -> int:
    value = asked.get(name)
    if type(value) is not int or not least <= value <= most:
        raise Asks(400, f'{name} is no whole number from {least} to {most}')
    return value
