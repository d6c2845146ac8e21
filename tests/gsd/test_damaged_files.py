"""`rackd slave`: GSD files that cannot be read, with the first row that is not accepted and its cause."""
import pytest

# What stands in modular.gsd, what stands there instead, and what is reported. Its last row is 50.
DAMAGED = [
    (b"#PROFIBUS_DP", b"#PROFIBUS", "row 4: #Profibus_DP is missing before this row"),
    (b"GSD_Revision=3", b'"GSD_Revision"=3', "row 5: expected a key"),
    (b"GSD_Revision=3", b"=3", "row 5: expected a key"),
    (b"GSD_Revision=3", b"(0)=3", "row 5: expected a key"),
    (b'Module="8DI" 0x10', b'Module="8DI 0x10', "row 38: a text without its closing quote"),
    (b"Sync_Mode_supp=1", b'Sync_Mode_supp="1', "row 10: a text without its closing quote"),
    (b"0x0BAD", b"0x1FFFF", "row 8: expected a number from 0 to 65535"),
    (b"0x0BAD", b"65536", "row 8: expected a number from 0 to 65535"),
    (b"0x0BAD", b"99999999999999999999", "row 8: expected a number from 0 to 65535"),
    (b"0x0BAD", b"BAD", "row 8: expected a number from 0 to 65535"),
    (b"0x0BAD", b"0x", "row 8: expected a number from 0 to 65535"),
    (b"0x0BAD", b"12 3", "row 8: expected a number from 0 to 65535"),
    (b"Ident_Number=0x0BAD", b"Ident_Number", "row 8: expected = and a value behind the key"),
    (b"Ident_Number=0x0BAD", b"Ident_Nummer=0x0BAD", "row 50: Ident_Number is missing"),
    (b"Freeze_Mode_supp=1", b"Freeze_Mode_supp=2", "row 9: expected a number from 0 to 1"),
    (b"Max_User_Prm_Data_Len=20", b"Max_User_Prm_Data_Len=238", "row 12: expected a number from 0 to 237"),
    (b"Max_Module=8", b"Max_Module=256", "row 14: expected a number from 0 to 255"),
    (b"Max_Input_Len=16", b"Max_Input_Len=245", "row 15: expected a number from 0 to 244"),
    (b"Max_Output_Len=0x10", b"Max_Output_Len=0xF5", "row 16: expected a number from 0 to 244"),
    (b"Max_Data_Len=32", b"Max_Data_Len=489", "row 17: expected a number from 0 to 488"),
    (b'Module="8DI" 0x10', b"Module=8DI 0x10", "row 38: expected a name in quotes"),
    (b'Module="8DI" 0x10', b'Module="8DI" 0x100', "row 38: expected octets from 0 to 255"),
    (b'Module="8DI" 0x10', b'Module="8DI" ten', "row 38: expected octets from 0 to 255"),
    (b'Module="8DI" 0x10', b'Module="' + b"8" * 129 + b'" 0x10', "row 38: expected a name of at most 128 octets"),
    (b'Module="8DI" 0x10', b'Module="8DI"' + b" 1" * 245, "row 38: expected at most 244 octets"),
    (b'Module="8DI" 0x10', b";" + b"-" * 2048, "row 38: expected at most 2048 octets in a row"),
    (b'Module="8DI" 0x10', b'Module="8DI" 0x10;' + b"-" * 2030, "row 38: expected at most 2048 octets in a row"),
    (b'Module="8DI" 0x10', b"8DI=1", "row 40: Module is missing before this row"),
    (b'EndModule\r\nModule="8DO"', b'\r\nModule="8DO"', "row 41: EndModule is missing before this row"),
    (b"  0XBB\r\n3\r\nEndModule", b"  0XBB\r\n3\r\n", "row 50: EndModule is missing"),
    (b"  0x43, 170\\", b"  0x43, 1700\\", "row 47: expected octets from 0 to 255"),
    # user parameters
    (b"Ext_User_Prm_Data_Const(0)=0x00,0x00,", b"Ext_User_Prm_Data_Const(0)=0x00,0x100,", "row 30: expected octets from 0 to 255"),
    (b"  0x01,0x02\r", b"  0x01,two\r", "row 31: expected octets from 0 to 255"),
    (b"Ext_User_Prm_Data_Const(0)=0x00,0x00,", b"Ext_User_Prm_Data_Const(236)=0x00,0x00,",
     "row 30: expected at most 237 octets of user parameters"),
    (b"Ext_User_Prm_Data_Const(0)=0x00,0x00,", b"Ext_User_Prm_Data_Const(234)=0x00,0x00,",
     "row 31: expected at most 237 octets of user parameters"),
    (b"Ext_User_Prm_Data_Ref(1)=1", b"Ext_User_Prm_Data_Ref(237)=1", "row 32: expected at most 237 octets of user parameters"),
    (b"Ext_User_Prm_Data_Ref(1)=1", b"Ext_User_Prm_Data_Ref(4294967296)=1", "row 32: expected at most 237 octets of user parameters"),
    (b"Ext_User_Prm_Data_Ref(1)=1", b"Ext_User_Prm_Data_Ref(1)=one", "row 32: expected a number from 0 to 65535"),
    (b"Ext_User_Prm_Data_Ref(1)=1", b"Ext_User_Prm_Data_Ref(1)", "row 32: expected = and a value behind the key"),
    (b"Ext_Module_Prm_Data_Len=2", b"Ext_Module_Prm_Data_Len=238", "row 43: expected a number from 0 to 237"),
    # slots
    (b"PrmText=1", b"Slot(1)=1 2,3", "row 19: expected a name in quotes"),
    (b"PrmText=1", b'Slot(1)="left" 1 2,3,x', "row 19: expected references of modules, as 1,2,5-9"),
    (b"PrmText=1", b'Slot(1)="left" 1 2-', "row 19: expected references of modules, as 1,2,5-9"),
    (b"PrmText=1", b'Slot(1)="left" 1' + b" 2" * 257, "row 19: expected at most 256 references and ranges of references"),
    (b"PrmText=1", b'Slot(1)="left 1 2', "row 19: a text without its closing quote"),
]
# The largest values that are accepted in place of what stands in modular.gsd.
LARGEST = [
    (b"0x0BAD", b"0xFFFF"), (b"0x0BAD", b"65535"), (b"Freeze_Mode_supp=1", b"Freeze_Mode_supp=0"),
    (b"Max_User_Prm_Data_Len=20", b"Max_User_Prm_Data_Len=237"), (b"Max_Module=8", b"Max_Module=255"),
    (b"Max_Input_Len=16", b"Max_Input_Len=244"), (b"Max_Output_Len=0x10", b"Max_Output_Len=0xF4"),
    (b"Max_Data_Len=32", b"Max_Data_Len=488"), (b'Module="8DI" 0x10', b'Module="8DI" 0xFF'),
    (b'Module="8DI" 0x10', b'Module="' + b"8" * 128 + b'" 0x10'), (b'Module="8DI" 0x10', b'Module="8DI"' + b" 1" * 244),
    # 2,048 octets with the CR of the row
    (b'Module="8DI" 0x10', b'Module="8DI" 0x10;' + b"-" * 2029),
]


def changed(by_hand, old, new):
    """Returns modular.gsd with one change."""
    whole = (by_hand / "modular.gsd").read_bytes()
    assert old in whole
    return whole.replace(old, new, 1)


@pytest.mark.parametrize("old, new, cause", DAMAGED, ids=[f"{number}-{row[2]}".replace(" ", "-")
                                                          for number, row in enumerate(DAMAGED, 1)])
def test_damaged_file(refused, by_hand, file_of, old, new, cause):
    path = file_of("damaged.gsd", changed(by_hand, old, new))
    refused(f"rackd: cannot use {path}\n  {cause}\n", "slave", path, "--module", "8DO")


@pytest.mark.parametrize("old, new", LARGEST, ids=[new[:26].decode() for _, new in LARGEST])
def test_largest_values(written, by_hand, file_of, old, new):
    assert b'cfg = "20"\n' in written("slave", file_of("largest.gsd", changed(by_hand, old, new)), "--module", "8DO")


def test_empty_file(refused, file_of):
    path = file_of("none.gsd", b"")
    refused(f"rackd: cannot use {path}\n  row 1: #Profibus_DP is missing before this row\n", "slave", path)


def test_last_module_has_no_end(refused, by_hand, file_of):
    path = file_of("unended.gsd", changed(by_hand, b"3\r\nEndModule", b"3\r\n"))
    refused(f"rackd: cannot use {path}\n  row 50: EndModule is missing\n", "slave", path, "--module", "8DO")
