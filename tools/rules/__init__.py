"""What tools/check looks for: a module for each rule, with the flaws that it must find."""
