"""Jobs and drivers of other engines, and what they take."""
