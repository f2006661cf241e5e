"""This command has moved: `python3 -m dispatch_tools control_room` at the top of the repository, or `dispatch-tools control_room`."""
import sys

sys.exit("bench/control_room.py has moved: python3 -m dispatch_tools control_room, or dispatch-tools control_room")
