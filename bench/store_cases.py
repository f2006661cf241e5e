"""This command has moved: `python3 -m dispatch_tools store_cases` at the top of the repository, or `dispatch-tools store_cases`."""
import sys

sys.exit("bench/store_cases.py has moved: python3 -m dispatch_tools store_cases, or dispatch-tools store_cases")
