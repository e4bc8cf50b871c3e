"""The commands of `tools/mesh`: questions about a feed, answered by running linkerd_cli and decoding its messages. `tools/feed` and
`tools/subscribe`, the peers of a server, share their helpers."""
