"""This command has moved: `python3 -m dispatch_tools from_sol` at the top of the repository, or `dispatch-tools from_sol`."""
import sys

sys.exit("tools/from_sol.py has moved: python3 -m dispatch_tools from_sol, or dispatch-tools from_sol")
