"""Members of the memory list that are refused, each the second of a list whose third is none either."""

# Each with the field that the fault names.
MEMBERS = [
    ('7', "type"),
    ('{}', "type"),
    ('{"type":"7"}', "type"),
    ('{"type":16}', "type"),
    ('{"type":1879048191}', "type"),
    ('{"type":4294967296}', "type"),
    ('{"type":-0}', "type"),
    ('{"type":7.0}', "type"),
    ('{"type":7e0}', "type"),
    ('{"type":18446744073709551616}', "type"),
    ('{"type":null}', "type"),
    ('{"pages":0,"type":7}', "start"),
    ('{"type":7,"start":4096}', "start"),
    ('{"type":7,"start":"4096"}', "start"),
    ('{"type":7,"start":"0X1000"}', "start"),
    ('{"type":7,"start":"0x1001"}', "start"),
    ('{"type":7,"start":"0x1000","pages":"1"}', "pages"),
    ('{"type":7,"start":"0x1000","pages":0}', "pages"),
    ('{"type":7,"start":"0xfffffffffffff000","pages":2}', "pages"),
    ('{"type":7,"start":"0x1000","pages":18446744073709551615}', "pages"),
    ('{"type":7,"start":"0x1000","pages":1}', "attributes"),
    ('{"type":7,"start":"0x1000","pages":1,"attributes":"f"}', "attributes"),
    ('{"type":7,"start":"0x1000","pages":1,"attributes":"0x8000000000000000"}', "attributes"),
]
FIRST = '{"type":5,"start":"0x0","pages":1,"attributes":"0x8000000000000000"}'


def cases():
    for member, field in MEMBERS:
        machine = f'{{"memory":[{FIRST},{member},9]}}'
        fault = f"bootcore: machine: descriptor 1: {field}\n"
        yield member, {"machine.json": machine, "trace.txt": "list\n", "stderr": fault, "status": "1"}
