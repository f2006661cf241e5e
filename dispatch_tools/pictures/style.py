"""The colours and the style of a time-distance diagram, light and dark."""
from __future__ import annotations

from typing import Iterable

# Colours that differ in lightness as well as in hue: on time, and the classes of lateness.
COLOURS = ('#2f6db3', '#b8860b', '#d95f02', '#b2182b', '#5b0b3b')
DARK = ('#7db5f0', '#e6c229', '#ff9e4a', '#ff6f6f', '#e58bd0')

STYLE = '''
.page{fill:#fff}text{font:12px system-ui,sans-serif;fill:#222}.title{font-size:15px;font-weight:600}
.small{font-size:12px;paint-order:stroke;stroke:#fff;stroke-width:3;stroke-linejoin:round}
.stop,.ten{stroke:#e2e2e2;stroke-width:1}.ten{stroke:#f0f0f0}.hour{stroke:#c4c4c4;stroke-width:1}
.plan{fill:none;stroke:#9a9a9a;stroke-width:.8}.run{fill:none;stroke-width:2;stroke-linejoin:round}
.kept,.dropped,.missed{fill:none;stroke-width:1.6;stroke-dasharray:2 3}.kept{stroke:#00735c}.dropped{stroke:#8a8a8a}
.missed{stroke:#b2182b}.cross{stroke:#555;stroke-width:1.6}.turned{fill:#fff;stroke:#6a3d9a;stroke-width:1.6}
.passed{fill:#222}.now{stroke:#6a3d9a;stroke-width:1.5;stroke-dasharray:6 3}
.conflict{fill:#b2182b;stroke:#fff;stroke-width:1}.then,.chosen-then{fill:none;stroke:#00735c;stroke-width:1.8}.then{stroke-dasharray:7 4}
.gone{fill:none;stroke:#777;stroke-width:1.4;stroke-dasharray:2 5}
'''
DARK_STYLE = '''
@media (prefers-color-scheme:dark){.page{fill:#16181c}text{fill:#e6e6e6}.small{stroke:#16181c}.stop,.ten{stroke:#2c2f36}.ten{stroke:#22252a}
.hour{stroke:#4a4e57}.plan{stroke:#80858f}.kept{stroke:#3fd0a8}.dropped{stroke:#a0a0a0}.missed{stroke:#ff6f6f}
.cross{stroke:#ccc}.turned{fill:#16181c;stroke:#c9a4ff}.passed{fill:#e6e6e6}.now{stroke:#c9a4ff}
.conflict{fill:#ff6f6f;stroke:#16181c}.then,.chosen-then{stroke:#3fd0a8}.gone{stroke:#aaa}}
'''


def colour_rules(colours: Iterable[str]) -> str:
    return ''.join(f'.l{kind}{{stroke:{colour}}}' for kind, colour in enumerate(colours))


def style() -> str:
    return STYLE + colour_rules(COLOURS) + DARK_STYLE[:-2] + colour_rules(DARK) + '}'
