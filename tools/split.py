"""This command has moved: `python3 -m dispatch_tools split` at the top of the repository, or `dispatch-tools split`."""
import sys

sys.exit("tools/split.py has moved: python3 -m dispatch_tools split, or dispatch-tools split")
