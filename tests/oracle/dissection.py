"""What tshark has to read of the packets of a capture, with the dissector share/fdl.lua and without.

The fields come from the octets of the telegrams, and the column Info of a request from the words of its explanation.
"""
import re
from typing import Dict, List, NamedTuple, Optional

from oracle.pcapng import INBOUND, Packet

WHO_COLUMNS = 26
MOMENT = re.compile(r'  at [0-9]+ (ms|s)$|  at [0-9. a-z]+$')
SERVICES = {None: 'Data_Exchange', 56: 'RD_Inp', 57: 'RD_Outp', 58: 'Global_Control', 59: 'Get_Cfg', 60: 'Slave_Diag',
            61: 'Set_Prm', 62: 'Chk_Cfg'}
OF_POINT = (3, 4, 5, 6, 12, 13)
# The fields that tshark reads without the dissector, and those that it reads with it.
PLAIN = ['frame.number', 'frame.interface_name', 'frame.time_epoch', 'frame.comment', 'exported_pdu.exported_pdu',
         'frame.packet_flags_direction']
FIELDS = ['fdl.da', 'fdl.sa', 'fdl.fc', 'fdl.fcb', 'fdl.fcv', 'fdl.function', 'fdl.response', 'fdl.dsap', 'fdl.ssap',
          'fdl.service', 'fdl.fcs_good', 'fdl.prm.lock_req', 'fdl.prm.unlock_req', 'fdl.prm.watchdog', 'fdl.prm.min_tsdr',
          'fdl.prm.ident', 'fdl.prm.groups', 'fdl.control.sync', 'fdl.control.freeze', 'fdl.control.clear_data',
          'fdl.control.groups', 'fdl.diag.station_not_ready', 'fdl.diag.prm_fault', 'fdl.diag.ext_diag', 'fdl.diag.prm_req',
          'fdl.diag.ext_diag_overflow', 'fdl.diag.holder', 'fdl.diag.ident', 'fdl.outputs', 'fdl.inputs', 'fdl.event']


class Difference(NamedTuple):
    """A field of a packet that tshark has read otherwise."""

    packet: int
    field: str
    found: Optional[str]
    wanted: str


# ---------------------------------------------------------------------------------------------------------------------
# Fields of a telegram, from its octets
# ---------------------------------------------------------------------------------------------------------------------


def parts_of(octets: bytes):
    """Returns DA, SA, FC, the data unit and the check sequence of the telegram at the front; None if there is none."""
    if octets[:1] == b'\x10' and len(octets) >= 6:
        at, size = 1, 6
    elif octets[:1] == b'\xA2' and len(octets) >= 14:
        at, size = 1, 14
    elif octets[:1] == octets[3:4] == b'\x68' and octets[1] == octets[2] and 4 <= octets[1] <= 249:
        at, size = 4, octets[1] + 6
    else:
        return None
    if len(octets) < size:
        return None
    da, sa, fc = octets[at:at + 3]
    return da, sa, fc, octets[at + 3:size - 2], octets[size - 2]


def prm_fields(octets: bytes) -> Dict[str, str]:
    fields = {'fdl.prm.lock_req': str(octets[0] >> 7), 'fdl.prm.unlock_req': str(octets[0] >> 6 & 1)}
    if len(octets) < 7:
        return fields
    if octets[0] & 8:
        fields['fdl.prm.watchdog'] = str(octets[1] * octets[2] * 10)
    fields['fdl.prm.min_tsdr'] = str(octets[3])
    fields['fdl.prm.ident'] = f'0x{octets[4:6].hex()}'
    fields['fdl.prm.groups'] = f'0x{octets[6]:02x}'
    return fields


def control_fields(octets: bytes) -> Dict[str, str]:
    if len(octets) != 2:
        return {}
    return {'fdl.control.sync': str(octets[0] >> 5 & 1), 'fdl.control.freeze': str(octets[0] >> 3 & 1),
            'fdl.control.clear_data': str(octets[0] >> 1 & 1), 'fdl.control.groups': f'0x{octets[1]:02x}'}


def diagnosis_fields(octets: bytes) -> Dict[str, str]:
    if len(octets) < 6:
        return {}
    return {'fdl.diag.station_not_ready': str(octets[0] >> 1 & 1), 'fdl.diag.ext_diag': str(octets[0] >> 3 & 1),
            'fdl.diag.prm_fault': str(octets[0] >> 6 & 1), 'fdl.diag.prm_req': str(octets[1] & 1),
            'fdl.diag.ext_diag_overflow': str(octets[2] >> 7), 'fdl.diag.holder': str(octets[3]),
            'fdl.diag.ident': f'0x{octets[4:6].hex()}'}


def unit_fields(fc: int, point, payload: bytes) -> Dict[str, str]:
    """Returns the fields of the data of a telegram to or from a point."""
    service = SERVICES.get(point)
    if not payload:
        return {}
    if fc & 0x40:
        if fc & 0x0F not in OF_POINT:
            return {}
        if point is None:
            return {'fdl.outputs': payload.hex()}
        makers = {'Set_Prm': prm_fields, 'Global_Control': control_fields}
    else:
        if point is None or service == 'RD_Inp':
            return {'fdl.inputs': payload.hex()}
        if service == 'RD_Outp':
            return {'fdl.outputs': payload.hex()}
        makers = {'Slave_Diag': diagnosis_fields}
    return makers[service](payload) if service in makers else {}


def fields_of(octets: bytes) -> Dict[str, str]:
    """Returns the fields that a telegram has to have; those that are missing have to be empty."""
    if octets[:1] == b'\xDC' and len(octets) == 3:
        return {'fdl.da': str(octets[1] & 127), 'fdl.sa': str(octets[2] & 127)}
    parts = parts_of(octets)
    if parts is None:
        return {}
    da, sa, fc, unit, sequence = parts
    good = sum([da, sa, fc, *unit]) % 256 == sequence
    fields = {'fdl.da': str(da & 127), 'fdl.sa': str(sa & 127), 'fdl.fc': f'0x{fc:02x}',
              'fdl.fcs_good': '1' if good else '0'}
    if fc & 0x40:
        fields.update({'fdl.fcb': str(fc >> 5 & 1), 'fdl.fcv': str(fc >> 4 & 1), 'fdl.function': str(fc & 15)})
    else:
        fields['fdl.response'] = str(fc & 15)
    points = {}
    for name, octet in (('fdl.dsap', da), ('fdl.ssap', sa)):
        if octet & 128:
            if not unit or unit[0] >= 64:
                return {**fields, **{name: str(point) for name, point in points.items()}}
            points[name], unit = unit[0], unit[1:]
    fields.update({name: str(point) for name, point in points.items()})
    point = points.get('fdl.dsap' if fc & 0x40 else 'fdl.ssap')
    if point in SERVICES and (fc & 0x0F in OF_POINT if fc & 0x40 else bool(unit)):
        fields['fdl.service'] = SERVICES[point]
    fields.update(unit_fields(fc, point, unit))
    return fields


def kind_of(block: List[str]) -> str:
    """Returns the words about the telegram in the first row of an explanation."""
    head = block[0]
    place = max(len(head.split()[0]), 5)
    return MOMENT.sub('', head[place + 2 + WHO_COLUMNS:])


# ---------------------------------------------------------------------------------------------------------------------
# Comparing
# ---------------------------------------------------------------------------------------------------------------------


def plain_row(number: int, packet: Packet) -> Dict[str, str]:
    """Returns what tshark has to read of a packet, whether it has the dissector or not."""
    seconds, micros = divmod(packet.time, 1_000_000)
    return {'frame.number': str(number), 'frame.interface_name': packet.interface,
            'frame.time_epoch': f'{seconds}.{micros:06d}000', 'frame.comment': packet.comment,
            'exported_pdu.exported_pdu': packet.octets.hex() or '<MISSING>',
            'frame.packet_flags_direction': f'0x{packet.direction:08x}'}


def differences(rows: List[Dict[str, str]], wanted: List[Dict[str, str]]) -> List[Difference]:
    """Returns what tshark has read otherwise, in packets of the same numbers."""
    return [Difference(int(other['frame.number']), field, row.get(field), value)
            for row, other in zip(rows, wanted) for field, value in other.items() if row.get(field) != value]


def without_place(comment: str) -> str:
    """Returns a comment without its place, `place 6 `: that is what Info has to show of a packet without octets."""
    return comment.split(' ', 2)[2]


def holder_rows(packets: List[Packet]) -> List[str]:
    """Returns the rows that name the holder, of all diagnoses in the packets, as the tree of tshark shows them."""
    addresses = [int(fields['fdl.diag.holder']) for fields in map(fields_of, (packet.octets for packet in packets))
                 if 'fdl.diag.holder' in fields]
    return [f"Master_Add: {'held by nobody' if address == 255 else f'held by master {address}'} ({address})"
            for address in addresses]


def dissected_row(number: int, packet: Packet, blocks: Dict[int, List[str]]) -> Dict[str, str]:
    """Returns what tshark has to read of a packet with the dissector."""
    fields = fields_of(packet.octets)
    row = {'frame.number': str(number), '_ws.col.Protocol': 'FDL'}
    if not packet.octets and packet.direction == INBOUND:
        row['_ws.col.Info'] = f'no telegram: {without_place(packet.comment)}'
    elif not packet.octets:
        fields['fdl.event'] = row['_ws.col.Info'] = without_place(packet.comment)
        # the comment begins with `place 6 operator -> slave 5`, or with `place 6 operator -> line`
        receiver = packet.comment.split()[4:6]
        row['_ws.col.Source'], row['_ws.col.Destination'] = 'operator', receiver[receiver[0] == 'slave']
    row.update({field: fields.get(field, '') for field in FIELDS if field != 'fdl.service' or 'fdl.service' in fields})
    place = int(packet.comment.split()[1])
    kind = kind_of(blocks[place])
    if packet.direction == INBOUND and packet.octets and not kind.endswith(' response'):
        row['_ws.col.Info'] = kind
    return row
