"""This command has moved: `python3 -m dispatch_tools architecture` at the top of the repository, or `dispatch-tools architecture`."""
import sys

sys.exit("bench/architecture.py has moved: python3 -m dispatch_tools architecture, or dispatch-tools architecture")
