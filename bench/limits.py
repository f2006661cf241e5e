"""This command has moved: `python3 -m dispatch_tools limits` at the top of the repository, or `dispatch-tools limits`."""
import sys

sys.exit("bench/limits.py has moved: python3 -m dispatch_tools limits, or dispatch-tools limits")
