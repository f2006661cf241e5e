"""This command has moved: `python3 -m dispatch_tools relay` at the top of the repository, or `dispatch-tools relay`."""
import sys

sys.exit("tools/relay.py has moved: python3 -m dispatch_tools relay, or dispatch-tools relay")
