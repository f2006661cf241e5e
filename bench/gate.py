"""This command has moved: `python3 -m dispatch_tools gate` at the top of the repository, or `dispatch-tools gate`."""
import sys

sys.exit("bench/gate.py has moved: python3 -m dispatch_tools gate, or dispatch-tools gate")
