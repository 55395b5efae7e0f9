"""What can come of a job over every schedule (docs/STUDY.md)."""
