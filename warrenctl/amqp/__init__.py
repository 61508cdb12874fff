"""A small client of AMQP 0-9-1, which the scripts beside it share. It needs Python 3.9 and its standard library alone."""
