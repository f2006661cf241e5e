"""This command has moved: `python3 -m dispatch_tools live` at the top of the repository, or `dispatch-tools live`."""
import sys

sys.exit("bench/live.py has moved: python3 -m dispatch_tools live, or dispatch-tools live")
