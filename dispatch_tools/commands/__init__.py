"""What people call, a command a file."""
