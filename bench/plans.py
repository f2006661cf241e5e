"""This command has moved: `python3 -m dispatch_tools plans` at the top of the repository, or `dispatch-tools plans`."""
import sys

sys.exit("bench/plans.py has moved: python3 -m dispatch_tools plans, or dispatch-tools plans")
