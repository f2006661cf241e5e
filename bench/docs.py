"""This command has moved: `python3 -m dispatch_tools docs` at the top of the repository, or `dispatch-tools docs`."""
import sys

sys.exit("bench/docs.py has moved: python3 -m dispatch_tools docs, or dispatch-tools docs")
