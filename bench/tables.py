"""This command has moved: `python3 -m dispatch_tools tables` at the top of the repository, or `dispatch-tools tables`."""
import sys

sys.exit("bench/tables.py has moved: python3 -m dispatch_tools tables, or dispatch-tools tables")
