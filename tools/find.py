"""This command has moved: `python3 -m dispatch_tools find` at the top of the repository, or `dispatch-tools find`."""
import sys

sys.exit("tools/find.py has moved: python3 -m dispatch_tools find, or dispatch-tools find")
