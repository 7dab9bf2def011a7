"""Drivers that are refused, each the second of a list whose third is none either."""
from drivers import DRIVER, driver_of, list_of

# Members that are no drivers, each with the field that the fault names: no objects, objects that lack a field behind those that
# they have, and some with several wrong fields, of which the fault names the first in the order of the fields.
MEMBERS = [
    ('7', "version"),
    ('null', "version"),
    ('[]', "version"),
    ('{}', "version"),
    ('{"version":4294967295,"x":0}', "needs"),
    ('{"version":0,"needs":[],"x":0}', "opens"),
    ('{"version":0,"needs":[],"opens":[],"x":0}', "children"),
    ('{"version":0,"needs":[],"opens":[],"children":[[]],"x":0}', "stops"),
    ('{"stops":0,"children":0,"version":"1"}', "version"),
    ('{"stops":0,"children":0,"version":1}', "needs"),
    ('{"stops":0,"opens":0,"needs":[],"version":1}', "opens"),
    ('{"stops":0,"opens":[],"needs":[],"version":1}', "children"),
    ('{"version":1,"version":[]}', "version"),
]
# The fields before one that is wrong.
BEFORE = {
    "version": "",
    "needs": '"version":4294967295,',
    "opens": '"version":0,"needs":[],',
    "children": '"version":0,"needs":[],"opens":[],',
    "stops": '"version":0,"needs":[],"opens":[],"children":[[]],',
}
# Fields with values that are refused.
VALUES = [
    ("version", '"1"'),
    ("version", '4294967296'),
    ("version", '18446744073709551616'),
    ("version", '-0'),
    ("version", '1.0'),
    ("version", 'true'),
    ("version", 'null'),
    ("needs", 'null'),
    ("needs", '{}'),
    ("needs", '"11111111-1111-1111-1111-111111111111"'),
    ("needs", '[7]'),
    ("needs", '[""]'),
    ("needs", '["11111111-1111-1111-1111-111111111111"," 11111111-1111-1111-1111-111111111111"]'),
    ("needs", '["1111111-11111-1111-1111-111111111111"]'),
    ("opens", 'null'),
    ("opens", '7'),
    ("opens", '[[]]'),
    ("opens", '["0x21"]'),
    ("children", 'null'),
    ("children", '{}'),
    ("children", '[7]'),
    ("children", '[[],{}]'),
    ("children", '[["22222222-2222-2222-2222-222222222222","0x21"]]'),
    ("children", '[[[]]]'),
    ("children", '[[["22222222-2222-2222-2222-222222222222"]]]'),
    ("children", '[[["22222222-2222-2222-2222-222222222222","0x21","0x22"]]]'),
    ("children", '[[["22222222-2222-2222-2222-222222222222",33]]]'),
    ("children", '[[["22222222-2222-2222-2222-222222222222","33"]]]'),
    ("children", '[[["0x21","22222222-2222-2222-2222-222222222222"]]]'),
    ("stops", '1'),
    ("stops", '"true"'),
    ("stops", 'null'),
    ("stops", '[]'),
    # one GUID more than the most
    ("opens", list_of('"11111111-1111-1111-1111-111111111111"', 9)),
]
# A GUID, a child and an interface of a child more than the most.
LONG = [(driver_of(9, 8, 4), "needs"), (driver_of(8, 9, 4), "children"), (driver_of(8, 8, 5), "children")]


def cases():
    values = [(f'{{{BEFORE[field]}"{field}":{value}}}', field) for field, value in VALUES]
    for member, field in MEMBERS + values + LONG:
        machine = f'{{"drivers":[{DRIVER},{member},9],"memory":[]}}'
        fault = f"bootcore: machine: driver 1: {field}\n"
        yield member[:100], {"machine.json": machine, "trace.txt": "list\n", "stderr": fault, "status": "1"}
