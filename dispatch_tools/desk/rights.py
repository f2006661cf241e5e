"""Who may ask the page's server for what: hosts, origins and the token."""
from __future__ import annotations

import hmac
import os
import re
from dataclasses import dataclass
from typing import Mapping, NamedTuple, Optional

from dispatch_tools.formats.files import BadFile

# A token has so many characters at least, a body so many bytes at most, and a name so many characters at most.
SHORTEST_TOKEN = 16
LONGEST_BODY = 4_096
LONGEST_NAME = 40

LOOPBACK = ('127.0.0.1', 'localhost', '[::1]')


class Holder(NamedTuple):
    """A token, and the name of who has it, which may be empty."""
    token: str
    name: str


def read_token(path: str) -> Holder:
    """The token in the first line of a file, and the name in the second; BadFile if they are not good or the file cannot be read."""
    try:
        with open(path, encoding='utf-8') as file:
            first, _, rest = file.read(4096).strip().partition('\n')
    except UnicodeDecodeError as error:
        raise BadFile(path, None, 'a token is in ASCII, and a name in UTF-8') from error
    except OSError as error:
        raise BadFile(path, None, error.strerror or 'cannot be read') from error
    token, name = first.strip(), rest.strip()
    if len(token) < SHORTEST_TOKEN or not token.isascii() or not token.isprintable() or ' ' in token:
        raise BadFile(path, None, f'a token has {SHORTEST_TOKEN} printable characters of ASCII at least, and no spaces')
    if len(name) > LONGEST_NAME or not name.isprintable():
        raise BadFile(path, None, f'a name is one line of {LONGEST_NAME} printable characters at most')
    return Holder(token, name)


def others_read(path: str) -> bool:
    """Whether others than its owner may read a file."""
    return bool(os.stat(path).st_mode & 0o077)


@dataclass(frozen=True)
class Rights:
    """The hosts by which the page is called, and the token with which one may report and decide, if there is one.

    A host with a port, as `127.0.0.1:8080`, is called with this port or with none, and one without a port is called with any."""
    hosts: frozenset[str]
    token: Optional[str]

    def refusal(self, headers: Mapping[str, str]) -> Optional[str]:
        """Why nothing is shown, or None: the page is called by its own names only, and by no other site's page."""
        if not self.is_called(headers.get('Host', '').lower()):
            return 'this host is not the desk'
        origin = headers.get('Origin')
        if origin is not None and not self.is_own(origin, headers):
            return 'this origin is not the desk'
        if headers.get('Sec-Fetch-Site', 'same-origin') not in ('same-origin', 'none') and headers.get('Sec-Fetch-Mode') != 'navigate':
            return 'another site asks'
        return None

    def refusal_to_tell(self, headers: Mapping[str, str]) -> Optional[str]:
        """Why nothing is taken from a page that is shown, or None."""
        if self.token is None:
            return 'this desk only shows: it was started without a token'
        if headers.get('Origin') is None:
            return 'a line comes from the page, which says its origin'
        return None if self.has_token(headers) else 'this is not the token'

    def has_token(self, headers: Mapping[str, str]) -> bool:
        """Whether a request has the token."""
        kind, _, given = headers.get('Authorization', '').partition(' ')
        return self.token is not None and kind == 'Bearer' and hmac.compare_digest(given.encode(), self.token.encode())

    def is_called(self, host: str) -> bool:
        """Whether the page is called by a name."""
        name, port = parts_of_host(host)
        return host in self.hosts or name in self.hosts or not port and any(parts_of_host(own)[0] == name for own in self.hosts)

    def is_own(self, origin: str, headers: Mapping[str, str]) -> bool:
        host = headers.get('Host', '').lower()
        return origin.lower() in (f'http://{host}', f'https://{host}')


def parts_of_host(host: str) -> tuple[str, str]:
    """The name of a host, and its port, if it says one."""
    found = re.fullmatch(r'(.*?)(?::([0-9]{1,5}))?', host)
    assert found is not None, 'each text has this form'
    return found[1], found[2] or ''


def hosts_of(listen: str, port: int, names: list[str]) -> frozenset[str]:
    """The hosts by which a page at this address may be called: this computer's at this port, and other names, as behind TLS."""
    own = [*LOOPBACK, listen if ':' not in listen else f'[{listen}]']
    return frozenset([*(f'{name}:{port}'.lower() for name in own), *(name.lower() for name in names)])


def is_loopback(listen: str) -> bool:
    return listen in ('localhost', '::1') or listen.startswith('127.')
