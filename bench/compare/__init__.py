"""What compares gmus with other programs."""
