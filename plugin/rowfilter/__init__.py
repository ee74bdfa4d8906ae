"""Filters of the rows of `kubectl np list`: several workloads, namespaces, ports. np has one focus and no filter of
ports, so it is asked for more rows, and of these some are passed on, byte for byte as it prints them.

`words` reads the options, `forms` reads rows in each of np's formats, `focus` finds the workloads in focus, and
`run` has np print its rows and passes on those that are kept.
"""
