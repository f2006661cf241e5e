"""This command has moved: `python3 -m dispatch_tools concerns` at the top of the repository, or `dispatch-tools concerns`."""
import sys

sys.exit("tools/concerns.py has moved: python3 -m dispatch_tools concerns, or dispatch-tools concerns")
