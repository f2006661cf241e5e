"""This command has moved: `python3 -m dispatch_tools searches` at the top of the repository, or `dispatch-tools searches`."""
import sys

sys.exit("bench/searches.py has moved: python3 -m dispatch_tools searches, or dispatch-tools searches")
