"""Exercises that check themselves, and marks for a class (docs/COURSE.md)."""
