"""The gateway: one process beside a centre, which owns its client's port and serves any number of applications over HTTP with JSON.

`gateway` of tools starts it, docs/GATEWAY.md says what it does. It stands on clients/python and the standard library.
"""
