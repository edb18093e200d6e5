"""What a server's log still has: the changes of the newest versions, as many as have at most a limit of changes together."""


def last_dropped(changes, limit):
    """The log has dropped the versions up to this one; the list has the changes of version 0, 1 and so on."""
    kept, version = 0, len(changes) - 1
    while version > 0 and kept + len(changes[version]) <= limit:
        kept += len(changes[version])
        version -= 1
    return version
