"""What tools/docs does: a module for each subcommand, and what several of them use."""
