"""The tests of `tools/mesh`, `tools/decode`, `tools/feed` and `tools/subscribe`. What each must print is told by hand from docs/RULES.md and
the feeds."""
