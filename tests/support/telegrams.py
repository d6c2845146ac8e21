"""Telegrams of masters, and the replies that tests expect. All are written by the frames of the package."""
from rackd import frames
from rackd.master import CHK_CFG, GLOBAL_CONTROL, MASTER, SDN, SET_PRM, SLAVE_DIAG, parameters

# What a session gets once its address is accepted.
ACCEPTED = b"\xe5"
# The function code of the first request to a slave: SRD with high priority and FCB 1.
FIRST = 0x6D


def slave_diag(master, slave, code=FIRST):
    """Returns a Slave_Diag."""
    return frames.request(slave, master, code, b"", SLAVE_DIAG, MASTER)


def fresh_diagnosis(master, slave, ident=0x80A1):
    """Returns the reply to Slave_Diag of a slave that waits for parameters, and that nobody holds."""
    data = bytes([0x02, 0x05, 0x00, 0xFF, ident >> 8, ident & 0xFF])
    return frames.request(master, slave, 0x08, data, MASTER, SLAVE_DIAG)


def set_prm(master, slave, code, ident=0x80A1, **options):
    """Returns a Set_Prm, with the parameters of `rackd.master.parameters`."""
    return frames.request(slave, master, code, parameters(ident, **options), SET_PRM, MASTER)


def chk_cfg(master, slave, code, cfg=b"\x21\x11"):
    """Returns a Chk_Cfg."""
    return frames.request(slave, master, code, cfg, CHK_CFG, MASTER)


def data_exchange(master, slave, code, outputs):
    """Returns a Data_Exchange."""
    return frames.request(slave, master, code, outputs)


def global_control(master, command=0, group=0, slave=127):
    """Returns a Global_Control, which gets no reply."""
    return frames.request(slave, master, SDN, bytes([command, group]), GLOBAL_CONTROL, MASTER)


def token(master, to=5):
    """Returns a token, which gets no reply."""
    return frames.token(to, master)
