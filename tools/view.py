"""This command has moved: `python3 -m dispatch_tools view` at the top of the repository, or `dispatch-tools view`."""
import sys

sys.exit("tools/view.py has moved: python3 -m dispatch_tools view, or dispatch-tools view")
