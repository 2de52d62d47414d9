"""From a table of events to updates of a simple graph."""
