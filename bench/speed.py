"""This command has moved: `python3 -m dispatch_tools speed` at the top of the repository, or `dispatch-tools speed`."""
import sys

sys.exit("bench/speed.py has moved: python3 -m dispatch_tools speed, or dispatch-tools speed")
