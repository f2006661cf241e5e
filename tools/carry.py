"""This command has moved: `python3 -m dispatch_tools carry` at the top of the repository, or `dispatch-tools carry`."""
import sys

sys.exit("tools/carry.py has moved: python3 -m dispatch_tools carry, or dispatch-tools carry")
