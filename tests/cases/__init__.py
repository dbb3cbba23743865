"""The cases of `kbroker start`: each runs brokers and clients of its own."""
