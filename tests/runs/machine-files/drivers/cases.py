"""Lists of drivers: those that are read, and one that is too long."""
from drivers import DRIVER, driver_of, list_of

# The fields in another order, one of them twice, and a key that is not known.
ANY_ORDER = '{"stops":false,"children":[],"opens":[],"needs":7,"name":{},"needs":[],"version":4294967295}'
# Each a name and the list; the key occurs twice in the first.
LISTS = [
    ("no drivers", '7,"drivers":[]'),
    ("one driver", list_of(DRIVER, 1)),
    ("fields in any order", list_of(ANY_ORDER, 1)),
    ("a driver with the longest lists", list_of(driver_of(8, 8, 4), 1)),
    ("most drivers", list_of(DRIVER, 64)),
]


def machine_of(drivers):
    return f'{{"memory":[],"drivers":{drivers}}}'


def cases():
    for name, drivers in LISTS:
        yield name, {"machine.json": machine_of(drivers), "trace.txt": "list\n", "stdout": "1 list descriptors=0\n"}
    # The length is judged before the members.
    too_many = {"machine.json": machine_of(list_of("7", 65)), "trace.txt": "list\n"}
    yield "a driver too many", {**too_many, "stderr": "bootcore: machine: too many drivers\n", "status": "1"}
