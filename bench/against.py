"""This command has moved: `python3 -m dispatch_tools against` at the top of the repository, or `dispatch-tools against`."""
import sys

sys.exit("bench/against.py has moved: python3 -m dispatch_tools against, or dispatch-tools against")
