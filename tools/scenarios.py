"""This command has moved: `python3 -m dispatch_tools scenarios` at the top of the repository, or `dispatch-tools scenarios`."""
import sys

sys.exit("tools/scenarios.py has moved: python3 -m dispatch_tools scenarios, or dispatch-tools scenarios")
