"""Days: made of timetables, drawn, played and planned."""
