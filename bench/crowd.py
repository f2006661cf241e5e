"""This command has moved: `python3 -m dispatch_tools crowd` at the top of the repository, or `dispatch-tools crowd`."""
import sys

sys.exit("bench/crowd.py has moved: python3 -m dispatch_tools crowd, or dispatch-tools crowd")
