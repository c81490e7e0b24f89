"""What tools/bench does: a module for each subcommand, and what several of them do."""
