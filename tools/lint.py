"""This command has moved: `python3 -m dispatch_tools lint` at the top of the repository, or `dispatch-tools lint`."""
import sys

sys.exit("tools/lint.py has moved: python3 -m dispatch_tools lint, or dispatch-tools lint")
