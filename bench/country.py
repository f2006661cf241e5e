"""This command has moved: `python3 -m dispatch_tools country` at the top of the repository, or `dispatch-tools country`."""
import sys

sys.exit("bench/country.py has moved: python3 -m dispatch_tools country, or dispatch-tools country")
