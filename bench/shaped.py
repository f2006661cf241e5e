"""This command has moved: `python3 -m dispatch_tools shaped` at the top of the repository, or `dispatch-tools shaped`."""
import sys

sys.exit("bench/shaped.py has moved: python3 -m dispatch_tools shaped, or dispatch-tools shaped")
