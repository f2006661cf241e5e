"""This command has moved: `python3 -m dispatch_tools updates` at the top of the repository, or `dispatch-tools updates`."""
import sys

sys.exit("bench/updates.py has moved: python3 -m dispatch_tools updates, or dispatch-tools updates")
