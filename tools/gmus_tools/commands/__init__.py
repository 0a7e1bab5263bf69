"""The commands for users, each a module with the text that its --help tells."""
