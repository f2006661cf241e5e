"""This command has moved: `python3 -m dispatch_tools converters` at the top of the repository, or `dispatch-tools converters`."""
import sys

sys.exit("bench/converters.py has moved: python3 -m dispatch_tools converters, or dispatch-tools converters")
