"""This command has moved: `python3 -m dispatch_tools morning` at the top of the repository, or `dispatch-tools morning`."""
import sys

sys.exit("bench/morning.py has moved: python3 -m dispatch_tools morning, or dispatch-tools morning")
