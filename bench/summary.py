"""This command has moved: `python3 -m dispatch_tools summary` at the top of the repository, or `dispatch-tools summary`."""
import sys

sys.exit("bench/summary.py has moved: python3 -m dispatch_tools summary, or dispatch-tools summary")
