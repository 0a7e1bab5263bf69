"""What looks at the built program from outside."""
