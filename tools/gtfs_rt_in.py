"""This command has moved: `python3 -m dispatch_tools gtfs_rt_in` at the top of the repository, or `dispatch-tools gtfs_rt_in`."""
import sys

sys.exit("tools/gtfs_rt_in.py has moved: python3 -m dispatch_tools gtfs_rt_in, or dispatch-tools gtfs_rt_in")
