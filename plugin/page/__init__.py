"""The page to look at: one HTML file of the connections that np computes, as `kubectl np page` and `np-page` write it.

`whole` puts the page together from what np answers (`answers`). Most of it is the table of a snapshot (`table`),
which is read from np's rows (`reading`, `rows`); workloads with equal rows share what they send (`matrix`). How the
page shows it is in the folder page/. `words` and `door` read the command lines.
"""
