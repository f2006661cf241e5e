"""This command has moved: `python3 -m dispatch_tools hostile` at the top of the repository, or `dispatch-tools hostile`."""
import sys

sys.exit("bench/hostile.py has moved: python3 -m dispatch_tools hostile, or dispatch-tools hostile")
