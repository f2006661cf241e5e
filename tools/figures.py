"""This command has moved: `python3 -m dispatch_tools figures` at the top of the repository, or `dispatch-tools figures`."""
import sys

sys.exit("tools/figures.py has moved: python3 -m dispatch_tools figures, or dispatch-tools figures")
