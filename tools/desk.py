"""This command has moved: `python3 -m dispatch_tools desk` at the top of the repository, or `dispatch-tools desk`."""
import sys

sys.exit("tools/desk.py has moved: python3 -m dispatch_tools desk, or dispatch-tools desk")
