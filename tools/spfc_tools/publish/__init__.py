"""spfc-publish: puts the records of a fragment into the DNS, in an order in which no receiver sees a broken chain.

Each step is kept in a state file before it is done, so a call that was broken off goes on where it stopped.
"""
