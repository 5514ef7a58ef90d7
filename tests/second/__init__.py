"""A second print queue, and a second server over it, to compare the program's answers with.

They are written from docs/reference/ipp.md, docs/reference/http.md, docs/dev/queue.md, docs/guide/device.md and docs/guide/accounts.md alone.
"""
