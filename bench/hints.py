"""This command has moved: `python3 -m dispatch_tools hints` at the top of the repository, or `dispatch-tools hints`."""
import sys

sys.exit("bench/hints.py has moved: python3 -m dispatch_tools hints, or dispatch-tools hints")
