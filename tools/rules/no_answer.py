"""Why there is no answer: usage, a planner that can't be asked, a reading that can't be right."""


class NoAnswer(Exception):
    """Why nothing was planned or run."""
