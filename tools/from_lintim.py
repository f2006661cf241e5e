"""This command has moved: `python3 -m dispatch_tools from_lintim` at the top of the repository, or `dispatch-tools from_lintim`."""
import sys

sys.exit("tools/from_lintim.py has moved: python3 -m dispatch_tools from_lintim, or dispatch-tools from_lintim")
