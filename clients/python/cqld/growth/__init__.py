"""What grows around an engine: a log that survives, Redis, parts by key, and SQL.

- `log`, `compact`: a log of requests in a file, and how to cut it short.
- `bridge`, `feed`: Redis Streams to an engine and back, and producers and readers of them.
- `parting`, `parted`, `merge`: queries over parts of their streams.
- `to_sql`: a query as one SELECT.

The page `docs/growth.md` of the repository says which to take.
"""
