"""This command has moved: `python3 -m dispatch_tools kill` at the top of the repository, or `dispatch-tools kill`."""
import sys

sys.exit("bench/kill.py has moved: python3 -m dispatch_tools kill, or dispatch-tools kill")
