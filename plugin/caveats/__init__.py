"""Caveats: what there is about this very list that an answer of np rests on, and that a reader of the answer would
want to know.

No answer changes by them. np says what the policies mean for the objects of the list, by the model of
docs/use/MODEL.md; a caveat is where the list and the cluster may not be alike, or where a policy likely does not do
what it was written for.

`table` has each kind once, and docs/use/CAVEATS.md has what each means; `caveat` is one with the connections that it
touches. `beside` sees what the filter drops. `values`, `selectors`, `owners`, `objects` and `policies` read the list;
`selecting`, `port_names`, `addresses`, `ingresses` and `unlisted` find the caveats, and `whole` has all of them.
`questions`, `statements` and `asked` choose those that bear on an answer, and `told` says them.
"""
