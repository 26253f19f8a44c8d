"""aclproxyctl: what operators and administrators of aclproxy hold in their hands.

Each command is a module of its own. Nothing here decides about a request: the program aclproxy does, and this tool says in
words what the program answers.
"""
