"""A browser without a window, driven over two pipes in its own protocol: Debian's package `chromium`."""
from __future__ import annotations

import base64
import fcntl
import json
import os
import shutil
import subprocess
import tempfile
from typing import Any, Optional

CHROMIUM = shutil.which('chromium')
MISSING = 'chromium is not installed'

WORDS = ['--headless', '--no-sandbox', '--disable-gpu', '--no-first-run', '--disable-extensions', '--hide-scrollbars',
         '--remote-debugging-pipe', '--window-size=1200,800', 'about:blank']

# So long a browser may live, in seconds.
PATIENCE = '600'


class Browser:
    """One page of a browser."""

    def __init__(self) -> None:
        self.folder = tempfile.TemporaryDirectory()
        hears, self.into = os.pipe()
        self.out_of, says = os.pipe()
        # The protocol's pipes are those of numbers 3 and 4, which these may have themselves.
        ends = [fcntl.fcntl(end, fcntl.F_DUPFD, 20) for end in (hears, says)]
        script = f'exec timeout {PATIENCE} "$@" 3<&{ends[0]} 4>&{ends[1]}'
        command = ['bash', '-c', script, 'bash', CHROMIUM or '', f'--user-data-dir={self.folder.name}', *WORDS]
        self.process = subprocess.Popen(command, pass_fds=ends, stdout=subprocess.DEVNULL, stderr=subprocess.DEVNULL)
        for end in hears, says, *ends:
            os.close(end)
        self.lines = open(self.out_of, 'rb')
        self.number, self.session, self.rest = 0, None, b''
        target = self.ask('Target.createTarget', url='about:blank')['targetId']
        self.session = self.ask('Target.attachToTarget', targetId=target, flatten=True)['sessionId']
        self.ask('Page.enable')
        self.ask('Runtime.enable')

    def close(self) -> None:
        os.close(self.into)
        self.process.terminate()
        self.process.wait()
        self.lines.close()
        self.folder.cleanup()

    def message(self) -> Any:
        """The next message of the browser."""
        while b'\0' not in self.rest:
            more = os.read(self.lines.fileno(), 1 << 16)
            if not more:
                raise EOFError('the browser has ended')
            self.rest += more
        message, _, self.rest = self.rest.partition(b'\0')
        return json.loads(message)

    def ask(self, method: str, until: Optional[str] = None, **words: Any) -> Any:
        """What the browser answers; where an event is waited for, when that has come."""
        self.number += 1
        asked = {'id': self.number, 'method': method, 'params': words, **({'sessionId': self.session} if self.session else {})}
        os.write(self.into, json.dumps(asked).encode() + b'\0')
        answer, happened = None, until is None
        while answer is None or not happened:
            message = self.message()
            happened = happened or message.get('method') == until
            if message.get('id') == self.number:
                answer = message
        if 'error' in answer:
            raise RuntimeError(answer['error'])
        return answer['result']

    def open(self, name: str) -> None:
        """Opens a file."""
        self.visit(f'file://{os.path.abspath(name)}')

    def visit(self, address: str) -> None:
        """Opens an address."""
        self.ask('Page.navigate', until='Page.loadEventFired', url=address)

    def beside(self, address: str) -> None:
        """Opens another page in the same browser, which is not driven; the driven one stays in front, as pages behind are slowed down."""
        driven, self.session = self.session, None
        self.ask('Target.createTarget', url=address, background=True)
        self.session = driven
        self.ask('Page.bringToFront')

    def look(self, width: int, height: int, scheme: str = 'light') -> None:
        """Gives the window a size, and the page the colours of day or of night."""
        self.ask('Emulation.setDeviceMetricsOverride', width=width, height=height, deviceScaleFactor=1, mobile=False)
        self.ask('Emulation.setEmulatedMedia', features=[{'name': 'prefers-color-scheme', 'value': scheme}])

    def picture(self) -> bytes:
        """What the window shows, as a PNG."""
        return base64.b64decode(self.ask('Page.captureScreenshot', format='png')['data'])

    def value(self, expression: str) -> Any:
        """The value of an expression in the page, where it is one of JSON."""
        result = self.ask('Runtime.evaluate', expression=expression, returnByValue=True, awaitPromise=True)
        if 'exceptionDetails' in result:
            raise RuntimeError(result['exceptionDetails'])
        return result['result'].get('value')

    def press(self, key: str, text: str = '') -> None:
        """Presses a key and lets it go."""
        code = {'Tab': 9, 'Enter': 13}.get(key, 0)
        words: dict[str, Any] = {'key': key, 'windowsVirtualKeyCode': code, **({'text': text} if text else {})}
        self.ask('Input.dispatchKeyEvent', type='keyDown', **words)
        self.ask('Input.dispatchKeyEvent', type='keyUp', **words)

    def wheel(self, x: float, y: float, down: float, ctrl: bool = False) -> None:
        """Turns the wheel over a point."""
        self.ask('Input.dispatchMouseEvent', type='mouseWheel', x=x, y=y, deltaX=0, deltaY=down, modifiers=2 if ctrl else 0)

    def settled(self) -> None:
        """Waits until the page has been drawn twice."""
        self.value('new Promise(done => requestAnimationFrame(() => requestAnimationFrame(() => done(true))))')
