"""The command line: subcommands, options, help, completion, and the printing of faults and warnings."""
