"""A server of the frames of `serve` whose tables stand in PostgreSQL."""
