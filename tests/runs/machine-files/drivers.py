"""Drivers of machine files, as text."""

DRIVER = (
    '{"version":1,"needs":["11111111-1111-1111-1111-111111111111"],"opens":["11111111-1111-1111-1111-111111111111"],'
    '"children":[[["22222222-2222-2222-2222-222222222222","0x21"]],[["22222222-2222-2222-2222-222222222222","0x22"]]],'
    '"stops":true}'
)


def list_of(text, count):
    """A list of the same text, the given number of times."""
    return f"[{','.join([text] * count)}]"


def driver_of(guids, children, pairs):
    """A driver that needs and opens the given numbers of GUIDs, with children of the given numbers."""
    names = list_of('"{18A031AB-B443-4D1A-A5C0-0C09261E9F71}"', guids)
    child = list_of('["18a031abb4434d1aa5c00c09261e9f71","0xFFFFFFFFFFFFFFFF"]', pairs)
    made = list_of(child, children)
    return f'{{"version":0,"needs":{names},"opens":{names},"children":{made},"stops":false}}'
