"""This command has moved: `python3 -m dispatch_tools instructions` at the top of the repository, or `dispatch-tools instructions`."""
import sys

sys.exit("bench/instructions.py has moved: python3 -m dispatch_tools instructions, or dispatch-tools instructions")
