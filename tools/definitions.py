"""This command has moved: `python3 -m dispatch_tools definitions` at the top of the repository, or `dispatch-tools definitions`."""
import sys

sys.exit("tools/definitions.py has moved: python3 -m dispatch_tools definitions, or dispatch-tools definitions")
