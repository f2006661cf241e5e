"""This command has moved: `python3 -m dispatch_tools fuzz` at the top of the repository, or `dispatch-tools fuzz`."""
import sys

sys.exit("bench/fuzz.py has moved: python3 -m dispatch_tools fuzz, or dispatch-tools fuzz")
