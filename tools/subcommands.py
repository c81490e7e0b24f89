"""Scripts with subcommands: each is a module of one folder. A module, and no tool itself."""

import importlib
import sys

import command_line


def group(text, folder, names):
    """What a script with these subcommands does: it runs the one that its first word names, which
    then finds its own words alone."""

    def main():
        name = sys.argv[1] if len(sys.argv) > 1 else None
        if name in names:
            command_line.NAME += f" {name}"
            del sys.argv[1]
            return importlib.import_module(f"{folder}.{name}").main()
        words = command_line.Words(text)
        words.add_argument("subcommand", choices=names)
        words.parse_args()
        return 0

    return main
