"""Tables, and what answers their rows."""
