"""This command has moved: `python3 -m dispatch_tools to_gtfs` at the top of the repository, or `dispatch-tools to_gtfs`."""
import sys

sys.exit("tools/to_gtfs.py has moved: python3 -m dispatch_tools to_gtfs, or dispatch-tools to_gtfs")
