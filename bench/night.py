"""This command has moved: `python3 -m dispatch_tools night` at the top of the repository, or `dispatch-tools night`."""
import sys

sys.exit("bench/night.py has moved: python3 -m dispatch_tools night, or dispatch-tools night")
