"""This command has moved: `python3 -m dispatch_tools queries` at the top of the repository, or `dispatch-tools queries`."""
import sys

sys.exit("bench/queries.py has moved: python3 -m dispatch_tools queries, or dispatch-tools queries")
