"""This command has moved: `python3 -m dispatch_tools refill` at the top of the repository, or `dispatch-tools refill`."""
import sys

sys.exit("tools/refill.py has moved: python3 -m dispatch_tools refill, or dispatch-tools refill")
