"""The tools for administrators around spfc.

They know the network, files and people, and spfc none of these: it reads master files, and what it says is proved.
So the tools ask the program for whatever a record, a name or a word means, and judge nothing by a grammar of their own.
"""
