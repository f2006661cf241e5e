"""This command has moved: `python3 -m dispatch_tools append` at the top of the repository, or `dispatch-tools append`."""
import sys

sys.exit("tools/append.py has moved: python3 -m dispatch_tools append, or dispatch-tools append")
