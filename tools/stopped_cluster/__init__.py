"""The parts of damaged_pages: each module reads one thing of a stopped PostgreSQL cluster."""
