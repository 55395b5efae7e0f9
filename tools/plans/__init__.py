"""Studies: a job run again with all combinations of some values (docs/STUDY.md)."""
