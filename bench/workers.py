"""This command has moved: `python3 -m dispatch_tools workers` at the top of the repository, or `dispatch-tools workers`."""
import sys

sys.exit("bench/workers.py has moved: python3 -m dispatch_tools workers, or dispatch-tools workers")
