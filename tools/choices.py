"""This command has moved: `python3 -m dispatch_tools choices` at the top of the repository, or `dispatch-tools choices`."""
import sys

sys.exit("tools/choices.py has moved: python3 -m dispatch_tools choices, or dispatch-tools choices")
