"""What pictures and pages of runs show."""
