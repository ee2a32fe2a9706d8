"""Files as written: Erlang's terms, configurations, the files of nodes, and scripts, with their faults and warnings."""
