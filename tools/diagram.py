"""This command has moved: `python3 -m dispatch_tools diagram` at the top of the repository, or `dispatch-tools diagram`."""
import sys

sys.exit("tools/diagram.py has moved: python3 -m dispatch_tools diagram, or dispatch-tools diagram")
