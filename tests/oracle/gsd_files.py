"""What GSD files have to say of slaves: by the GSD specification, and by IEC 61158-6-3 for the identifiers of a configuration."""


def lengths(octets):
    """Returns the octets of inputs and of outputs that the identifiers of a configuration have."""
    inputs = outputs = 0
    rest = list(octets)
    while rest:
        head = rest.pop(0)
        if head & 0x30:
            count = ((head & 15) + 1) * (2 if head & 0x40 else 1)
            inputs += count if head & 0x10 else 0
            outputs += count if head & 0x20 else 0
            continue
        for is_output in {0: (), 1: (False,), 2: (True,), 3: (True, False)}[head >> 6]:
            length = rest.pop(0)
            count = ((length & 63) + 1) * (2 if length & 0x40 else 1)
            if is_output:
                outputs += count
            else:
                inputs += count
        maker = head & 15
        del rest[:0 if maker == 15 else maker]
    return inputs, outputs


def settings_of(text):
    """Returns the keys and values of a GSD file that `rackd gsd` wrote, and its modules: the name and the octets of each.

    Each row has to end in CR LF and has at most 80 characters, no key may stand twice, and each module has to have its end.
    """
    assert text.endswith(b"\r\n")
    assert text.count(b"\n") == text.count(b"\r") == text.count(b"\r\n")
    assert all(len(row) <= 80 for row in text.decode("latin-1").split("\r\n"))
    rows = text.decode("latin-1").replace("\\\r\n", "").split("\r\n")[:-1]
    assert rows[0] == "#Profibus_DP"
    found, modules = {}, []
    for row in rows[1:]:
        if row.startswith("Module = "):
            name, octets = row[len('Module = "'):].split('" ')
            modules.append((name, [int(octet, 16) for octet in octets.split(",") if octet]))
        elif " = " in row:
            key, value = row.split(" = ")
            assert key not in found
            found[key] = value
    assert rows.count("EndModule") == len(modules)
    return found, modules


def configurations(slave):
    """Returns the octets of each configuration of a slave of a rack file."""
    cfg = slave["cfg"]
    return [list(bytes.fromhex(each)) for each in ([cfg] if isinstance(cfg, str) else cfg)]


def settings_wanted(slave):
    """Returns keys and values that the GSD file of a slave of a rack file has to have, without names of vendor and model.

    The value is None for a key that the file must not have: a compact slave has no lengths.
    """
    sizes = [lengths(octets) for octets in configurations(slave)]
    modular = len(sizes) > 1
    return {
        "Ident_Number": f"0x{slave['ident']:04X}",
        "Freeze_Mode_supp": "1" if slave.get("freeze", False) else "0",
        "Sync_Mode_supp": "1" if slave.get("sync", False) else "0",
        "Fail_Safe": "1" if slave.get("failsafe", False) else "0",
        "Max_User_Prm_Data_Len": str(slave.get("user_max", 237)),
        "Max_Module": "1" if modular else None,
        "Max_Input_Len": str(max(inputs for inputs, _ in sizes)) if modular else None,
        "Max_Output_Len": str(max(outputs for _, outputs in sizes)) if modular else None,
        "Max_Data_Len": str(max(inputs + outputs for inputs, outputs in sizes)) if modular else None,
        "Max_Diag_Data_Len": "244",
        "Modular_Station": "1" if modular else "0",
    }
