"""This command has moved: `python3 -m dispatch_tools check` at the top of the repository, or `dispatch-tools check`."""
import sys

sys.exit("bench/check.py has moved: python3 -m dispatch_tools check, or dispatch-tools check")
