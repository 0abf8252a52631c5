// Not given, not used.
