"""What the tools share: the bytes of messages, datagrams and logs, a configuration, and nodes as processes."""
