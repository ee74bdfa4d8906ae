"""kubectl np: runs np on the objects of a cluster, or on manifests.

No answer is computed here: each comes from a run of np. The modules go from the words of the command line (`words`)
over where the objects come from (`cluster`, `manifests`, `snapshot`) to the commands (`names`, `gate`, `page`,
`helptext`). `door` has what is done, in order.
"""
