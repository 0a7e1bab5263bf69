"""Many runs of gmus on one problem: tasks, where they run, who judges what they find."""
