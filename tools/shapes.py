"""This command has moved: `python3 -m dispatch_tools shapes` at the top of the repository, or `dispatch-tools shapes`."""
import sys

sys.exit("tools/shapes.py has moved: python3 -m dispatch_tools shapes, or dispatch-tools shapes")
