"""This command has moved: `python3 -m dispatch_tools health` at the top of the repository, or `dispatch-tools health`."""
import sys

sys.exit("tools/health.py has moved: python3 -m dispatch_tools health, or dispatch-tools health")
