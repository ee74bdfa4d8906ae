"""kubectl np changes: what opens and what closes between two states of the objects.

Who can reach whom is np's to say: of each state it prints its table, and what is computed here is the difference of the
two alone.
"""
