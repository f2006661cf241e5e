"""This command has moved: `python3 -m dispatch_tools day` at the top of the repository, or `dispatch-tools day`."""
import sys

sys.exit("bench/day.py has moved: python3 -m dispatch_tools day, or dispatch-tools day")
