"""Homework from a seed: questions whose answers the machine gives (docs/TEACHING.md)."""
