"""Readers of the repository's files, for `believe`, `check-documents`, `dead-names`, `lines` and `mutants`. Nothing here
proves or runs anything except `joint_checks`, which checks crates for `mutants`."""
