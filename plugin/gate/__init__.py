"""The gate: every statement of a file on its own, for pipelines.

No answer is computed here: each comes from np. All statements go into one run of `np check`, which names the first that
does not hold, and those behind it go into the next; where more than a few are violated, rows of `np list` say which
(`rows`), so that np runs few times. What np's grammar does not have (only, pods, the workloads of an owner,
outside-namespace) is written out as statements of np, and what comes through Ingresses is compared with rows.

`words` reads the command line, `grammar` the parts of a statement, `label_selectors` labels in it, and `statements` the
file, once. `workloads` and `pods` know who is in the list, `blocks` what addresses; `written_out` makes np's statements
of the gate's, `check` runs np, and `judge` has it judge them. `ingress` asks what comes through Ingresses, with
`opened` to know where they lead; `nothing` finds what asks about no packet, and `caveats` marks what some caveat
touches. `report`, `junit` and `sarif` write the answers, `files` to files, and `run` has all that in order.
"""
