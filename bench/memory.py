"""This command has moved: `python3 -m dispatch_tools memory` at the top of the repository, or `dispatch-tools memory`."""
import sys

sys.exit("bench/memory.py has moved: python3 -m dispatch_tools memory, or dispatch-tools memory")
