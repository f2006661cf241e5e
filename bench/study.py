"""This command has moved: `python3 -m dispatch_tools study` at the top of the repository, or `dispatch-tools study`."""
import sys

sys.exit("bench/study.py has moved: python3 -m dispatch_tools study, or dispatch-tools study")
