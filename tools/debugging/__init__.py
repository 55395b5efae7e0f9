"""A run of a job for an editor that debugs: the run at any call, and the debug adapter."""
