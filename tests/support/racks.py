"""Texts of rack files. The system chooses all ports, unless a test names them."""


def value_of(value):
    """Returns a value as TOML has it."""
    if isinstance(value, bool):
        return str(value).lower()
    if isinstance(value, (list, tuple)):
        return f"[{', '.join(map(value_of, value))}]"
    return str(value) if isinstance(value, int) else f'"{value}"'


def rows_of(keys):
    return "".join(f"{key} = {value_of(value)}\n" for key, value in keys.items())


def slave(address, **keys):
    """Returns the part of a rack file that has a slave: two octets of outputs and two of inputs, unless keys say else."""
    return "[[line.slave]]\n" + rows_of({"address": address, "ident": 0x80A1, "cfg": "2111", **keys})


def line(number, *slaves, **keys):
    """Returns the part of a rack file that has a line: masters 1 to 3, unless keys say else. A slave may be an address."""
    own = {"number": number, "masters": [1, 2, 3], "listen": 0, "operator": 0, "capacity": 65536, **keys}
    return "[[line]]\n" + rows_of(own) + "".join(part if isinstance(part, str) else slave(part) for part in slaves)


def rack(*lines, **keys):
    """Returns the text of a rack file of these lines, by default of line 1 with slave 5."""
    return rows_of({"workers": 8, **keys}) + "".join(lines or [line(1, 5)])


def usual_rack(*numbers, **keys):
    """Returns a rack of lines with these numbers, each with slaves 5, 6 (a mirror) and 7 (a counter)."""
    slaves = [slave(5, device="still"), slave(6, device="mirror"), slave(7, device="counter")]
    return rack(*(line(number, *slaves) for number in numbers or (1,)), **keys)
