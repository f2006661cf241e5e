"""This command has moved: `python3 -m dispatch_tools store` at the top of the repository, or `dispatch-tools store`."""
import sys

sys.exit("bench/store.py has moved: python3 -m dispatch_tools store, or dispatch-tools store")
