"""This command has moved: `python3 -m dispatch_tools power` at the top of the repository, or `dispatch-tools power`."""
import sys

sys.exit("bench/power.py has moved: python3 -m dispatch_tools power, or dispatch-tools power")
