"""Lets the kit's port.py end within its own half hour on a repository of this size.

    PYTHONPATH=tools/port_cache python3 /opt/rattle/port/port.py

Two of its steps search the same texts for the same patterns millions of times. Here compiled patterns are kept, and what
re.search found of a pattern that begins at a 'use' line. What port.py writes is the same.
"""
import re

re._MAXCACHE = 200000
found, plain = {}, re.search


def search(pattern, string, flags=0):
    if flags or not isinstance(pattern, str) or not isinstance(string, str) or "use\\s" not in pattern:
        return plain(pattern, string, flags)
    if (pattern, string) not in found:
        found[pattern, string] = plain(pattern, string)
    return found[pattern, string]


re.search = search
