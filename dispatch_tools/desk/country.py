"""The page of a country: its regions and what waits at their boundaries, as they are when it is asked for. It has no script."""
from __future__ import annotations

import threading
import time
from collections.abc import Callable
from typing import Iterable, Iterator

from dispatch_tools.desk.rights import hosts_of, Rights
from dispatch_tools.formats.markup import escaped, policy
from dispatch_tools.live.country import Country, line_of, Look, metrics_of, wait_words
from dispatch_tools.live.health import CRITICAL, JOURNAL, STATUS_WORDS
from dispatch_tools.live.http_server import Asks, BoundedHandler, BoundedServer

# A browser asks for the page again after so many seconds.
AGAIN = 5

# Of what waits at a boundary the page tells so many in words.
MOST_TOLD = 3

STYLE = '''
:root { color-scheme: light dark; --line: #d9dce1; --good: #00634f; --warn: #8a5a00; --late: #b2182b; }
@media (prefers-color-scheme: dark) { :root { --line: #363a42; --good: #3fd0a8; --warn: #e6c229; --late: #ff8080; } }
body { font: 16px/1.4 system-ui, sans-serif; margin: 1.5rem; }
table { border-collapse: collapse; margin: 1rem 0 2rem; }
th, td { border-bottom: 1px solid var(--line); padding: 0.3rem 0.8rem; text-align: left; vertical-align: top; }
td.number { text-align: right; font-variant-numeric: tabular-nums; }
.s0 { color: var(--good); } .s1, .s3 { color: var(--warn); } .s2 { color: var(--late); font-weight: bold; }
'''

POLICY = policy([], [STYLE]) + "; frame-ancestors 'none'"


def page_of(country: Country, look: Look) -> str:
    """The page in HTML."""
    return ('<!DOCTYPE html>\n<html lang="en"><head><meta charset="utf-8"><title>The country</title>'
            f'<meta http-equiv="refresh" content="{AGAIN}"><style>{STYLE}</style></head><body>\n<h1>The country</h1>\n'
            f'<p class="s{look.status}" role="status">{escaped(line_of(look))}</p>\n'
            f'{"".join(regions_part(country, look))}{"".join(boundaries_part(country, look))}</body></html>\n')


def table(heads: Iterable[str], rows: Iterable[str]) -> str:
    head = ''.join(f'<th scope="col">{name}</th>' for name in heads)
    return f'<table><thead><tr>{head}</tr></thead><tbody>\n{"".join(rows)}</tbody></table>\n'


def number(text: object) -> str:
    return f'<td class="number">{text}</td>'


def regions_part(country: Country, look: Look) -> Iterator[str]:
    yield '<h2>Regions</h2>\n'
    heads = ['Region', 'State', 'What', 'Entries', 'Journal', 'Feeds: answered, waiting, quiet', 'Its word', 'Its boards']
    yield table(heads, (region_row(country, look, region) for region in country.regions))


def region_row(country: Country, look: Look, name: int) -> str:
    region, found = country.regions[name], look.found[name]
    ages = [f'{look.now - heard:.0f} s ago' if heard else 'never' for heard in (region.heard, region.boards)]
    state = region.state
    feeds = '' if state is None else '<br>'.join(f'{feed.answered}, {feed.waiting}, {feed.age} s' for feed in state.feeds)
    cells = [number(name), f'<td class="s{found.status}">{STATUS_WORDS[found.status]}</td>',
             f'<td>{escaped("; ".join(found.said) or (state.said if state else ""))}</td>',
             number(state.entries if state else ''), number(f'{100 * state.journal // JOURNAL} %' if state else ''),
             f'<td>{feeds}</td>', *map(number, ages)]
    return f'<tr>{"".join(cells)}</tr>\n'


def boundaries_part(country: Country, look: Look) -> Iterator[str]:
    yield '<h2>Boundaries</h2>\n'
    heads = ['From', 'To', 'Activities', 'Events that wait', 'For', 'What they wait for']
    yield table(heads, (boundary_row(country, look, *boundary) for boundary in look.waits))


def boundary_row(country: Country, look: Look, home: int, region: int) -> str:
    waiting = look.waits[home, region]
    seconds = look.now - waiting[0].since if waiting else 0
    kind = f' s{CRITICAL}' if seconds > country.patience else ''
    told = '<br>'.join(escaped(wait_words(wait)) for wait in waiting[:MOST_TOLD]) + ('<br>..' if len(waiting) > MOST_TOLD else '')
    cells = [number(home), number(region), number(country.cuts[home, region]), number(len(waiting)),
             f'<td class="number{kind}">{f"{seconds:.0f} s" if waiting else ""}</td>', f'<td>{told}</td>']
    return f'<tr>{"".join(cells)}</tr>\n'


# ---- Serving it


class Pages(BoundedServer):
    """A server of a country's page, its figures and its line, on this computer, which is also called by some names."""

    def __init__(self, port: int, names: list[str], country: Country, lock: threading.Lock) -> None:
        self.country, self.lock = country, lock
        super().__init__(('127.0.0.1', port), Handler)
        self.rights = Rights(hosts_of('127.0.0.1', self.server_port, names), None)

    def told(self, say: Callable[[Country, Look], str]) -> tuple[str, int]:
        """What is said of the country now, and its status."""
        with self.lock:
            look = self.country.look(time.monotonic())
            return say(self.country, look), look.status


class Handler(BoundedHandler):
    server: Pages
    server_version = 'country'
    headers_of_all = [('Content-Security-Policy', POLICY), ('X-Content-Type-Options', 'nosniff'), ('Referrer-Policy', 'no-referrer'),
                      ('Cache-Control', 'no-store'), ('Cross-Origin-Resource-Policy', 'same-origin')]

    def do_GET(self) -> None:
        self.answer(self.get)

    def get(self) -> None:
        refusal = self.server.rights.refusal(self.headers)  # type: ignore[arg-type]
        if refusal is not None:
            raise Asks(403, 'this host is not the page of the country, or another site asks')
        if self.path == '/':
            self.send(self.server.told(page_of)[0].encode(), 'text/html; charset=utf-8')
        elif self.path == '/metrics':
            self.send(self.server.told(metrics_of)[0].encode(), 'text/plain; version=0.0.4; charset=utf-8')
        elif self.path == '/health':
            line, status = self.server.told(lambda _, look: line_of(look))
            self.send(f'{line}\n'.encode(), 'text/plain; charset=utf-8', 503 if status >= CRITICAL else 200)
        else:
            raise Asks(404, 'there is nothing under this address')
