# Nothing is asked for.
