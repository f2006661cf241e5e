#!/usr/bin/env python3
"""Makes what a country's broker and its clients need: broker.py FOLDER NAME [--regions N] [--port P]

NAME is the name by which clients call the machine of the broker. FOLDER gets for Mosquitto `mosquitto.conf` with TLS, `access` with
what each name may write and read, `passwords`, and certificates (`certificates` makes them). It gets a folder `of-USER` for each
user, of-region-1 and of-room-1 and so on, and of-watch, who reads all. There `mosquitto_pub` and `mosquitto_sub` find all that they
need to know, if the variable XDG_CONFIG_HOME names the folder. Nobody but the owner may read passwords and keys. FOLDER is the one
in which split has made the regions. It has the same name on all machines, since the files name `ca.crt` in it.

Users that are there keep nothing: each time new passwords are drawn. The script needs `mosquitto_passwd` (Debian's `mosquitto`) and
`openssl`.
"""
from __future__ import annotations

import os
import re
import secrets
import socket
import subprocess
import sys
import time

HERE = os.path.dirname(os.path.abspath(__file__))
sys.path.insert(0, os.path.join(HERE, '..', '..'))

from dispatch_tools.words import command_line, whole_between, whole_path  # noqa: E402


class Broker:
    """A Mosquitto with the users of `access` and what they may do, and a new password for each of them."""

    def __init__(self, folder: str, port: int) -> None:
        self.folder, self.port = folder, port
        # Started by root it would become the user `mosquitto`, who may not read the folder.
        self.write('mosquitto.conf', self.config() + ('user root\n' if os.geteuid() == 0 else ''))
        access = self.access()
        self.write('access', access)
        passwords = {user: secrets.token_urlsafe() for user in re.findall('^user (.+)$', access, re.MULTILINE)}
        self.write('passwords', ''.join(f'{user}:{password}\n' for user, password in passwords.items()))
        subprocess.run(['mosquitto_passwd', '-U', os.path.join(folder, 'passwords')], check=True)
        for user, password in passwords.items():
            words = f'{self.where()}\n-p {port}\n-u {user}\n-P {password}\n'
            for program in ('mosquitto_pub', 'mosquitto_sub'):
                self.write(os.path.join(f'of-{user}', program), words)

    def config(self) -> str:
        """What the broker is told, as it ships, at its port."""
        with open(os.path.join(HERE, 'mosquitto.conf'), encoding='ascii') as file:
            return file.read().replace('listener 18830 ', f'listener {self.port} ')

    def access(self) -> str:
        """Who may write and read what, as it ships."""
        with open(os.path.join(HERE, 'access'), encoding='ascii') as file:
            return file.read()

    def where(self) -> str:
        """The words by which a client finds the broker."""
        return '-h 127.0.0.1'

    def write(self, name: str, text: str) -> None:
        """Writes a file that its owner alone may read."""
        name = os.path.join(self.folder, name)
        os.makedirs(os.path.dirname(name), exist_ok=True)
        with open(os.open(name, os.O_WRONLY | os.O_CREAT | os.O_TRUNC, 0o600), 'w', encoding='ascii') as file:
            file.write(text)

    def client(self, user: str, program: str, *words: str) -> list[str]:
        """The command of a user's client. It finds name and password in a file, so that they are not in the list of processes."""
        return ['env', f'XDG_CONFIG_HOME={os.path.join(self.folder, f"of-{user}")}', program, *words]

    def start(self) -> subprocess.Popen[bytes]:
        """Starts the broker, and waits until it accepts connections."""
        with open(os.path.join(self.folder, 'broker-said'), 'ab') as said:
            process = subprocess.Popen(['mosquitto', '-c', 'mosquitto.conf'], cwd=self.folder, stdout=said, stderr=said)
        for _ in range(1200):
            try:
                socket.create_connection(('127.0.0.1', self.port)).close()
                return process
            except OSError:
                time.sleep(0.05)
        process.kill()
        raise SystemExit('the broker does not start')


class Tls(Broker):
    """The broker with TLS on a machine of a name, and a name and a password for each of so many regions."""

    def __init__(self, folder: str, port: int, regions: int, name: str = 'localhost') -> None:
        self.regions, self.name = regions, name
        subprocess.run([os.path.join(HERE, 'certificates'), folder, name], check=True)
        super().__init__(folder, port)

    def config(self) -> str:
        here = ' 127.0.0.1' if self.name == 'localhost' else ''
        tls = f'listener {self.port}{here}\ncafile ca.crt\ncertfile broker.crt\nkeyfile broker.key'
        return re.sub('^listener .*$', tls, super().config(), count=1, flags=re.MULTILINE)

    def access(self) -> str:
        """The two blocks of a region for each of them."""
        text = super().access()
        block = text[text.index('user region-1\n'):text.index('user region-2\n')]
        blocks = (re.sub('(?<=[-/])1(?=/|$)', str(number), block, flags=re.MULTILINE) for number in range(1, self.regions + 1))
        return ''.join(blocks) + text[text.index('user site\n'):]

    def where(self) -> str:
        return f'-h {self.name}\n--cafile {os.path.join(self.folder, "ca.crt")}'


def main() -> None:
    words = command_line(__doc__)
    words.add_argument('folder', metavar='FOLDER', type=whole_path, help='folder of the country')
    words.add_argument('name', metavar='NAME', help='name of the machine of the broker; localhost takes nothing from elsewhere')
    words.add_argument('--regions', type=whole_between(1, 1000), default=3, metavar='N', help='how many regions (3)')
    words.add_argument('--port', type=whole_between(1, 65_535), default=8883, metavar='P', help='the port of the broker (8883)')
    given = words.parse_args()
    Tls(given.folder, given.port, given.regions, given.name)


if __name__ == '__main__':
    main()
