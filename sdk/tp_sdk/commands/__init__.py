"""What each command does with its words."""
