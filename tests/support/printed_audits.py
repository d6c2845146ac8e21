"""The audit texts that `rackd serve` prints on standard output when it ends, one for each line of the rack."""


def printed_audits(run, rack, output, folder):
    """Returns the entries of each audit text of an output by the number of its line, in the order of the output.

    Each text has to be legal by `rackd check` for this rack file, and nothing may come before the first one.
    """
    texts = []
    for row in output.splitlines():
        if row.startswith("rack-audit "):
            texts.append([])
        assert texts, f"before the first audit text comes {row!r}"
        texts[-1].append(row)
    journals = {}
    for head, *entries in texts:
        words, number = head.rsplit(" ", 1)
        assert words == "rack-audit 2 line"
        assert int(number) not in journals
        path = folder / f"printed-{number}.audit"
        path.write_text("".join(f"{row}\n" for row in [head, *entries]), encoding="ascii")
        checked = run("check", rack, path)
        assert checked == (0, f"legal {len(entries)}\n", ""), f"the audit text of line {number}"
        journals[int(number)] = entries
    return journals
