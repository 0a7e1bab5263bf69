"""What whoever changes gmus calls: the build, what a change breaks, costs, the man page, a release."""
