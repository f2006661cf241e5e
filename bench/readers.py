"""This command has moved: `python3 -m dispatch_tools readers` at the top of the repository, or `dispatch-tools readers`."""
import sys

sys.exit("bench/readers.py has moved: python3 -m dispatch_tools readers, or dispatch-tools readers")
