"""What tools/stress does: a module for each subcommand, and the parts of both."""
