"""This command has moved: `python3 -m dispatch_tools judge` at the top of the repository, or `dispatch-tools judge`."""
import sys

sys.exit("bench/judge.py has moved: python3 -m dispatch_tools judge, or dispatch-tools judge")
