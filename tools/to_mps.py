"""This command has moved: `python3 -m dispatch_tools to_mps` at the top of the repository, or `dispatch-tools to_mps`."""
import sys

sys.exit("tools/to_mps.py has moved: python3 -m dispatch_tools to_mps, or dispatch-tools to_mps")
