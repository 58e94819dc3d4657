"""How a tool ends: what was wrong, how many passed and failed, and its status."""


def told(wrongs, most=None):
    """Prints what was wrong, so much of it at most."""
    for wrong in wrongs[:most]:
        print(wrong)


def ended(what, tried, failed, more=""):
    """Prints how many passed and failed, and answers the status: 1 where some failed, and where none were tried."""
    print(f"{what}: {tried - failed} passed, {failed} failed{more}")
    return 1 if failed or not tried else 0


def faults(*told):
    """What was told, where anything was."""
    return [each for each in told if each]
