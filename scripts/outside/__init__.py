"""Checks of the two built programs from outside: by what they read, print, send and leave on disk."""
