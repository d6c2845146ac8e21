-- Dissector of PROFIBUS FDL telegrams (IEC 61158-4-3) with their DP services (IEC 61158-6-3), for Wireshark and tshark.
--
-- How to install it: copy this file into the folder of personal Lua plugins, which Wireshark shows in Help, About
-- Wireshark, Folders. On Linux that is ~/.local/lib/wireshark/plugins, on Windows %APPDATA%\Wireshark\plugins. Restart
-- Wireshark, or choose Analyze, Reload Lua Plugins. To try it without an installation:
--
--   wireshark -X lua_script:share/fdl.lua capture.pcapng
--   tshark -X lua_script:share/fdl.lua -r capture.pcapng
--
-- No setting is needed: a capture of rackd names the dissector `fdl` in each packet. Useful filters:
--
--   frame.comment contains "NotHolder"    requests that were refused because another master holds the slave
--   fdl.service == "Set_Prm"              requests and replies of a service
--   fdl.da == 5 || fdl.sa == 5            all telegrams of one slave
--   fdl.event contains "slave 5"          what an operator did to one slave
--   fdl.diag.holder == 1                  replies in which a slave is held by master 1
--
-- The words are those of `rackd explain`.

local fdl = Proto("fdl", "PROFIBUS FDL")

local BITS = { [0] = "0", [1] = "1" }

local START_NAMES = { [0x10] = "SD1", [0x68] = "SD2", [0xA2] = "SD3", [0xDC] = "SD4", [0xE5] = "SC" }

local FUNCTIONS = {
  [3] = "SDA low", [4] = "SDN low", [5] = "SDA high", [6] = "SDN high", [9] = "FDL status", [12] = "SRD low",
  [13] = "SRD high", [14] = "ident", [15] = "LSAP status",
}

-- The functions that use access points and the frame count bit.
local OF_POINT = { [3] = true, [4] = true, [5] = true, [6] = true, [12] = true, [13] = true }

local RESPONSES = {
  [0] = "OK", [1] = "UE, user error", [2] = "RR, no resource", [3] = "RS, not activated", [8] = "DL, data low",
  [10] = "DH, data high (a diagnosis is due)",
}

local STATION_TYPES = {
  [0] = "slave", [1] = "master, not ready", [2] = "master, ready for the ring", [3] = "master, in the ring",
}

local SERVICES = {
  [56] = "RD_Inp", [57] = "RD_Outp", [58] = "Global_Control", [59] = "Get_Cfg", [60] = "Slave_Diag", [61] = "Set_Prm",
  [62] = "Chk_Cfg",
}

local UNSIMULATED = {
  [49] = "MSAC_C2, DP-V1", [50] = "MSAL_C1, DP-V1", [51] = "MSAC_C1, DP-V1", [54] = "master to master",
  [55] = "Set_Slave_Add",
}

local DEFAULT_SERVICE = "Data_Exchange"

local NO_MASTER = 255

-- Returns what each value of Master_Add means: the address of the master that holds the slave, 0 to 126, or 255.
local function holder_names()
  local names = { [NO_MASTER] = "held by nobody" }
  for address = 0, 126 do
    names[address] = "held by master " .. address
  end
  return names
end

-- ---- the fields

local f = {
  event = ProtoField.string("fdl.event", "Event"),
  start = ProtoField.uint8("fdl.start", "Start delimiter", base.HEX, START_NAMES),
  length = ProtoField.uint8("fdl.length", "Length", base.DEC),
  length_again = ProtoField.uint8("fdl.length_again", "Length, repeated", base.DEC),
  start_again = ProtoField.uint8("fdl.start_again", "Start delimiter, repeated", base.HEX),
  da = ProtoField.uint8("fdl.da", "Destination address", base.DEC, nil, 0x7F),
  da_extension = ProtoField.uint8("fdl.da_extension", "Destination access point follows", base.DEC, BITS, 0x80),
  sa = ProtoField.uint8("fdl.sa", "Source address", base.DEC, nil, 0x7F),
  sa_extension = ProtoField.uint8("fdl.sa_extension", "Source access point follows", base.DEC, BITS, 0x80),
  fc = ProtoField.uint8("fdl.fc", "Function code", base.HEX),
  request = ProtoField.uint8("fdl.request", "Request", base.DEC, BITS, 0x40),
  fcb = ProtoField.uint8("fdl.fcb", "FCB, frame count bit", base.DEC, BITS, 0x20),
  fcv = ProtoField.uint8("fdl.fcv", "FCV, FCB is valid", base.DEC, BITS, 0x10),
  fn = ProtoField.uint8("fdl.function", "Function", base.DEC, FUNCTIONS, 0x0F),
  station_type = ProtoField.uint8("fdl.station_type", "Station type", base.DEC, STATION_TYPES, 0x30),
  response = ProtoField.uint8("fdl.response", "Response", base.DEC, RESPONSES, 0x0F),
  dsap = ProtoField.uint8("fdl.dsap", "DSAP", base.DEC),
  ssap = ProtoField.uint8("fdl.ssap", "SSAP", base.DEC),
  service = ProtoField.string("fdl.service", "Service"),
  data = ProtoField.bytes("fdl.data", "Data"),
  outputs = ProtoField.bytes("fdl.outputs", "Outputs"),
  inputs = ProtoField.bytes("fdl.inputs", "Inputs"),
  fcs = ProtoField.uint8("fdl.fcs", "FCS, frame check sequence", base.HEX),
  fcs_expected = ProtoField.uint8("fdl.fcs_expected", "Right FCS", base.HEX),
  fcs_good = ProtoField.bool("fdl.fcs_good", "FCS is right"),
  ed = ProtoField.uint8("fdl.ed", "End delimiter", base.HEX),
}

local prm = {
  lock = ProtoField.uint8("fdl.prm.lock_req", "Lock_Req", base.DEC, BITS, 0x80),
  unlock = ProtoField.uint8("fdl.prm.unlock_req", "Unlock_Req", base.DEC, BITS, 0x40),
  sync = ProtoField.uint8("fdl.prm.sync_req", "Sync_Req", base.DEC, BITS, 0x20),
  freeze = ProtoField.uint8("fdl.prm.freeze_req", "Freeze_Req", base.DEC, BITS, 0x10),
  wd_on = ProtoField.uint8("fdl.prm.wd_on", "WD_On", base.DEC, BITS, 0x08),
  wd_fact_1 = ProtoField.uint8("fdl.prm.wd_fact_1", "WD_Fact_1", base.DEC),
  wd_fact_2 = ProtoField.uint8("fdl.prm.wd_fact_2", "WD_Fact_2", base.DEC),
  watchdog = ProtoField.uint32("fdl.prm.watchdog", "Watchdog in ms", base.DEC),
  min_tsdr = ProtoField.uint8("fdl.prm.min_tsdr", "min TSDR", base.DEC),
  ident = ProtoField.uint16("fdl.prm.ident", "Ident_Number", base.HEX),
  groups = ProtoField.uint8("fdl.prm.groups", "Group_Ident", base.HEX),
  user = ProtoField.bytes("fdl.prm.user", "User parameters"),
  dp_v1 = ProtoField.string("fdl.prm.dp_v1", "DP-V1"),
}

local cfg = {
  identifier = ProtoField.bytes("fdl.cfg.identifier", "Identifier"),
  inputs = ProtoField.uint8("fdl.cfg.inputs", "Input octets", base.DEC),
  outputs = ProtoField.uint8("fdl.cfg.outputs", "Output octets", base.DEC),
  vendor = ProtoField.bytes("fdl.cfg.vendor", "Vendor octets"),
}

local gc = {
  clear_data = ProtoField.uint8("fdl.control.clear_data", "Clear_Data", base.DEC, BITS, 0x02),
  unfreeze = ProtoField.uint8("fdl.control.unfreeze", "Unfreeze", base.DEC, BITS, 0x04),
  freeze = ProtoField.uint8("fdl.control.freeze", "Freeze", base.DEC, BITS, 0x08),
  unsync = ProtoField.uint8("fdl.control.unsync", "Unsync", base.DEC, BITS, 0x10),
  sync = ProtoField.uint8("fdl.control.sync", "Sync", base.DEC, BITS, 0x20),
  groups = ProtoField.uint8("fdl.control.groups", "Group_Select", base.HEX),
}

local diag = {
  station_not_ready = ProtoField.uint8("fdl.diag.station_not_ready", "Station_Not_Ready", base.DEC, BITS, 0x02),
  cfg_fault = ProtoField.uint8("fdl.diag.cfg_fault", "Cfg_Fault", base.DEC, BITS, 0x04),
  ext_diag = ProtoField.uint8("fdl.diag.ext_diag", "Ext_Diag", base.DEC, BITS, 0x08),
  not_supported = ProtoField.uint8("fdl.diag.not_supported", "Not_Supported", base.DEC, BITS, 0x10),
  prm_fault = ProtoField.uint8("fdl.diag.prm_fault", "Prm_Fault", base.DEC, BITS, 0x40),
  prm_req = ProtoField.uint8("fdl.diag.prm_req", "Prm_Req", base.DEC, BITS, 0x01),
  stat_diag = ProtoField.uint8("fdl.diag.stat_diag", "Stat_Diag", base.DEC, BITS, 0x02),
  wd_on = ProtoField.uint8("fdl.diag.wd_on", "WD_On", base.DEC, BITS, 0x08),
  freeze_mode = ProtoField.uint8("fdl.diag.freeze_mode", "Freeze_Mode", base.DEC, BITS, 0x10),
  sync_mode = ProtoField.uint8("fdl.diag.sync_mode", "Sync_Mode", base.DEC, BITS, 0x20),
  overflow = ProtoField.uint8("fdl.diag.ext_diag_overflow", "Ext_Diag_Overflow", base.DEC, BITS, 0x80),
  holder = ProtoField.uint8("fdl.diag.holder", "Master_Add", base.DEC, holder_names()),
  ident = ProtoField.uint16("fdl.diag.ident", "Ident_Number", base.HEX),
  extended = ProtoField.bytes("fdl.diag.extended", "Extended diagnosis"),
  block = ProtoField.string("fdl.diag.block", "Block"),
}

local all_fields = {}
for _, fields in ipairs({ f, prm, cfg, gc, diag }) do
  for _, field in pairs(fields) do
    all_fields[#all_fields + 1] = field
  end
end
fdl.fields = all_fields

local bad_fcs = ProtoExpert.new("fdl.fcs_wrong", "The frame check sequence is wrong", expert.group.CHECKSUM, expert.severity.WARN)
local no_telegram = ProtoExpert.new("fdl.no_telegram", "No telegram", expert.group.MALFORMED, expert.severity.WARN)
fdl.experts = { bad_fcs, no_telegram }

-- ---- small parts

-- Returns bits `first` to `last` of an octet, bit 0 being the lowest.
local function bits(octet, first, last)
  return math.floor(octet / 2 ^ first) % 2 ^ (last - first + 1)
end

local function is_set(octet, bit)
  return bits(octet, bit, bit) == 1
end

-- Returns the names of the bits that are set; `rows` has pairs of a bit and a name.
local function names_of(octet, rows)
  local names = {}
  for _, row in ipairs(rows) do
    if is_set(octet, row[1]) then
      names[#names + 1] = row[2]
    end
  end
  return names
end

local function joined(names, none)
  return #names == 0 and none or table.concat(names, ", ")
end

-- Returns the groups of an octet, one for each bit, numbered from 1.
local function groups_text(octet, none)
  local numbers = {}
  for bit = 0, 7 do
    if is_set(octet, bit) then
      numbers[#numbers + 1] = tostring(bit + 1)
    end
  end
  if #numbers == 0 then
    return none
  end
  return (#numbers == 1 and "group " or "groups ") .. table.concat(numbers, ", ")
end

local function hex_of(range)
  return tostring(range:bytes()):lower():gsub("(%x%x)", "%1 "):sub(1, -2)
end

-- Returns what a point that no simulated slave has is for; nothing if it is for nothing known.
local function purpose_text(point)
  local purpose = UNSIMULATED[point]
  return purpose and " (" .. purpose .. ": not simulated)" or ""
end

local function point_text(point)
  if point == nil then
    return DEFAULT_SERVICE
  end
  if SERVICES[point] then
    return string.format("%s (%d)", SERVICES[point], point)
  end
  return "DSAP " .. point .. purpose_text(point)
end

local function service_name(point)
  if point == nil then
    return DEFAULT_SERVICE
  end
  return SERVICES[point] or UNSIMULATED[point] or "DSAP " .. point
end

-- ---- Set_Prm

local DP_V1_BITS = {
  { { 7, "DPV1_Enable" }, { 6, "Fail_Safe" }, { 5, "Publisher_Enable" }, { 2, "WD_Base_1ms" },
    { 1, "Dis_Stopbit_Control" }, { 0, "Dis_Startbit_Control" } },
  { { 7, "Enable_Pull_Plug_Alarm" }, { 6, "Enable_Process_Alarm" }, { 5, "Enable_Diagnostic_Alarm" },
    { 4, "Enable_Manufacturer_Specific_Alarm" }, { 3, "Enable_Status_Alarm" }, { 2, "Enable_Update_Alarm" },
    { 0, "Chk_Cfg_Mode" } },
  { { 7, "Prm_Cmd" }, { 4, "IsoM_Req" }, { 3, "Prm_Structure" } },
}

-- Returns whether three octets have the form of DP-V1: their reserved bits are 0, and not all octets are 0.
local function has_dp_v1_form(first, second, third)
  local reserved = is_set(first, 4) or is_set(first, 3) or is_set(second, 1) or is_set(third, 6) or is_set(third, 5)
  return not reserved and first + second + third > 0
end

local function dp_v1_text(user)
  local octets = { user(0, 1):uint(), user(1, 1):uint(), user(2, 1):uint() }
  if not has_dp_v1_form(octets[1], octets[2], octets[3]) then
    return nil
  end
  local names = {}
  for index, octet in ipairs(octets) do
    for _, name in ipairs(names_of(octet, DP_V1_BITS[index])) do
      names[#names + 1] = name
    end
  end
  local mode = bits(octets[3], 0, 2)
  if mode ~= 0 then
    names[#names + 1] = "Alarm_Mode " .. mode
  end
  return joined(names, "")
end

local function add_user_parameters(tree, user)
  local item = tree:add(prm.user, user)
  if user:len() >= 3 then
    local text = dp_v1_text(user)
    if text then
      item:add(prm.dp_v1, user(0, 3), text)
    end
  end
end

local function add_parameters(tree, range)
  local status = range(0, 1)
  for _, field in ipairs({ prm.lock, prm.unlock, prm.sync, prm.freeze, prm.wd_on }) do
    tree:add(field, status)
  end
  if range:len() < 7 then
    tree:append_text(", too short: " .. range:len() .. " of at least 7 octets")
    return
  end
  tree:add(prm.wd_fact_1, range(1, 1))
  tree:add(prm.wd_fact_2, range(2, 1))
  if is_set(status:uint(), 3) then
    tree:add(prm.watchdog, range(1, 2), range(1, 1):uint() * range(2, 1):uint() * 10):set_generated()
  end
  tree:add(prm.min_tsdr, range(3, 1))
  tree:add(prm.ident, range(4, 2))
  tree:add(prm.groups, range(6, 1)):append_text(" (" .. groups_text(range(6, 1):uint(), "groups none") .. ")")
  if range:len() > 7 then
    add_user_parameters(tree, range(7))
  end
end

-- ---- configurations

local function amount_text(octet, count)
  local unit = is_set(octet, 6) and "word" or "octet"
  return string.format("%d %s%s", count, unit, count == 1 and "" or "s")
end

local function octets_of(octet, count)
  return is_set(octet, 6) and 2 * count or count
end

-- Returns the size of the identifier at the front of the range, its words, and its input and output octets; nil if it is
-- cut.
local function general_identifier(head)
  local count = bits(head, 0, 3) + 1
  local octets = octets_of(head, count)
  local kind = bits(head, 4, 5)
  local words = ({ "inputs ", "outputs ", "inputs and outputs " })[kind] .. amount_text(head, count)
  return 1, words, kind ~= 2 and octets or nil, kind ~= 1 and octets or nil
end

local function special_identifier(range, head)
  local form = bits(head, 6, 7)
  local lengths = ({ [0] = 0, 1, 1, 2 })[form]
  local vendor = bits(head, 0, 3)
  local size = 1 + lengths + (vendor == 15 and 0 or vendor)
  if size > range:len() then
    return nil
  end
  if form == 0 then
    return size, "empty slot", nil, nil, lengths
  end
  local first = range(1, 1):uint()
  local amount = amount_text(first, bits(first, 0, 5) + 1)
  local octets = octets_of(first, bits(first, 0, 5) + 1)
  if form == 1 then
    return size, "inputs " .. amount, octets, nil, lengths
  end
  if form == 2 then
    return size, "outputs " .. amount, nil, octets, lengths
  end
  local second = range(2, 1):uint()
  local count = bits(second, 0, 5) + 1
  return size, "outputs " .. amount .. ", inputs " .. amount_text(second, count), octets_of(second, count), octets, lengths
end

local function add_configuration(tree, range)
  while range and range:len() > 0 do
    local head = range(0, 1):uint()
    local size, words, inputs, outputs, lengths
    if bits(head, 4, 5) ~= 0 then
      size, words, inputs, outputs = general_identifier(head)
    else
      size, words, inputs, outputs, lengths = special_identifier(range, head)
    end
    if not size then
      tree:add(cfg.identifier, range):append_text(" ends within an identifier")
      return
    end
    local item = tree:add(cfg.identifier, range(0, size)):append_text(" " .. words)
    if outputs then item:add(cfg.outputs, range(0, size), outputs):set_generated() end
    if inputs then item:add(cfg.inputs, range(0, size), inputs):set_generated() end
    if lengths and size > 1 + lengths then item:add(cfg.vendor, range(1 + lengths, size - 1 - lengths)) end
    range = size < range:len() and range(size) or nil
  end
end

-- ---- Global_Control

local CONTROL_BITS = { { 1, "Clear_Data" }, { 2, "Unfreeze" }, { 3, "Freeze" }, { 4, "Unsync" }, { 5, "Sync" } }

local function add_control(tree, range)
  if range:len() ~= 2 then
    tree:add(f.data, range)
    return
  end
  for _, field in ipairs({ gc.clear_data, gc.unfreeze, gc.freeze, gc.unsync, gc.sync }) do
    tree:add(field, range(0, 1))
  end
  tree:add(gc.groups, range(1, 1)):append_text(" (" .. groups_text(range(1, 1):uint(), "every slave") .. ")")
  tree:append_text(", " .. joined(names_of(range(0, 1):uint(), CONTROL_BITS), "Operate"))
end

-- ---- diagnoses

local CHANNEL_DIRECTIONS = { "input", "output", "input and output" }

local CHANNEL_TYPES = { "1 bit", "2 bits", "4 bits", "1 octet", "1 word", "2 words" }

local CHANNEL_ERRORS = {
  "short circuit", "undervoltage", "overvoltage", "overload", "overtemperature", "line break", "upper limit exceeded",
  "lower limit exceeded", "error",
}

local function identifiers_text(block)
  local numbers = {}
  for index = 1, block:len() - 1 do
    for bit = 0, 7 do
      if is_set(block(index, 1):uint(), bit) then
        numbers[#numbers + 1] = tostring(8 * (index - 1) + bit)
      end
    end
  end
  if #numbers == 0 then
    return "no identifier"
  end
  return (#numbers == 1 and "identifier " or "identifiers ") .. table.concat(numbers, ", ")
end

local function channel_text(block)
  local identifier = bits(block(0, 1):uint(), 0, 5)
  local second, third = block(1, 1):uint(), block(2, 1):uint()
  local facts = {}
  facts[#facts + 1] = CHANNEL_DIRECTIONS[bits(second, 6, 7)]
  facts[#facts + 1] = CHANNEL_TYPES[bits(third, 5, 7)]
  local facts_text = #facts == 0 and "" or " (" .. table.concat(facts, ", ") .. ")"
  local number = bits(third, 0, 4)
  local fault = CHANNEL_ERRORS[number] or "error " .. number
  return string.format("channel %d of identifier %d%s: %s", bits(second, 0, 5), identifier, facts_text, fault)
end

-- Returns the size of a block and the function that shows it, by its head.
local function block_size(head)
  local kind = bits(head, 6, 7)
  if kind == 2 then return 3 end
  if kind == 3 then return 1 end
  return bits(head, 0, 5)
end

local function block_text(block)
  local head = block(0, 1):uint()
  local kind = bits(head, 6, 7)
  if kind == 0 then
    return "device" .. (block:len() > 1 and " " .. hex_of(block(1)) or "")
  end
  if kind == 1 then return identifiers_text(block) end
  if kind == 2 then return channel_text(block) end
  return "revision " .. bits(head, 0, 5)
end

-- Returns the blocks of an extended diagnosis; nil if its octets don't have this form.
local function blocks_of(range)
  local blocks = {}
  while range do
    local size = block_size(range(0, 1):uint())
    if size == 0 or size > range:len() then
      return nil
    end
    blocks[#blocks + 1] = range(0, size)
    range = size < range:len() and range(size) or nil
  end
  return blocks
end

local function add_diagnosis(tree, range)
  if range:len() < 6 then
    tree:add(f.data, range)
    return
  end
  local status = {
    { diag.station_not_ready, diag.cfg_fault, diag.ext_diag, diag.not_supported, diag.prm_fault },
    { diag.prm_req, diag.stat_diag, diag.wd_on, diag.freeze_mode, diag.sync_mode },
    { diag.overflow },
  }
  for index, fields in ipairs(status) do
    for _, field in ipairs(fields) do
      tree:add(field, range(index - 1, 1))
    end
  end
  tree:add(diag.holder, range(3, 1))
  tree:add(diag.ident, range(4, 2))
  if range:len() > 6 then
    local extended = range(6)
    local item = tree:add(diag.extended, extended)
    for _, block in ipairs(blocks_of(extended) or {}) do
      item:add(diag.block, block, block_text(block))
    end
  end
end

-- ---- data units

-- Adds the data of a request to a point.
local function add_request_data(tree, point, range)
  if point == nil then
    tree:add(f.outputs, range)
  elseif SERVICES[point] == "Set_Prm" then
    add_parameters(tree:add(fdl, range, "Set_Prm"), range)
  elseif SERVICES[point] == "Chk_Cfg" then
    add_configuration(tree:add(fdl, range, "Chk_Cfg"), range)
  elseif SERVICES[point] == "Global_Control" then
    add_control(tree:add(fdl, range, "Global_Control"), range)
  else
    tree:add(f.data, range)
  end
end

-- Adds the data of a response from a point.
local function add_response_data(tree, point, range)
  if point == nil or SERVICES[point] == "RD_Inp" then
    tree:add(f.inputs, range)
  elseif SERVICES[point] == "RD_Outp" then
    tree:add(f.outputs, range)
  elseif SERVICES[point] == "Get_Cfg" then
    add_configuration(tree:add(fdl, range, "Get_Cfg"), range)
  elseif SERVICES[point] == "Slave_Diag" then
    add_diagnosis(tree:add(fdl, range, "Slave_Diag"), range)
  else
    tree:add(f.data, range)
  end
end

-- Adds the access points that the address octets announce. Returns whether they can be read, the points, and where the
-- data begin. The slave's point has a service: that of the receiver of a request, or of the sender of a response.
local function add_points(tree, unit, da, sa, fc)
  local points, at = {}, 0
  local of_slave = is_set(fc, 6) and "dsap" or "ssap"
  for _, row in ipairs({ { da, "dsap" }, { sa, "ssap" } }) do
    if is_set(row[1], 7) then
      if unit == nil or at >= unit:len() or unit(at, 1):uint() >= 64 then
        return false
      end
      points[row[2]] = unit(at, 1):uint()
      local item = tree:add(f[row[2]], unit(at, 1))
      if row[2] == of_slave then item:append_text(" (" .. service_name(points[row[2]]) .. ")") end
      at = at + 1
    end
  end
  return true, points.dsap, points.ssap, at
end

local function add_function_code(tree, range)
  local fc = range:uint()
  local item = tree:add(f.fc, range)
  item:add(f.request, range)
  if is_set(fc, 6) then
    for _, field in ipairs({ f.fcb, f.fcv, f.fn }) do item:add(field, range) end
  else
    item:add(f.station_type, range)
    item:add(f.response, range)
  end
end

-- Returns the function of a request, with FCB and FCV if it uses them, or the response.
local function function_text(fc)
  local number = bits(fc, 0, 3)
  if not is_set(fc, 6) then
    return RESPONSES[number] or string.format("FC %02x", fc)
  end
  local text = FUNCTIONS[number] or "reserved function " .. number
  if OF_POINT[number] then
    text = string.format("%s FCB %d FCV %d", text, bits(fc, 5, 5), bits(fc, 4, 4))
  end
  return text
end

-- Returns the words about the points of a telegram; nothing for a function without access points.
local function access_text(fc, dsap, ssap)
  if not is_set(fc, 6) then
    return ssap and "  " .. point_text(ssap) or ""
  end
  if not OF_POINT[bits(fc, 0, 3)] then
    return ""
  end
  if dsap == nil or SERVICES[dsap] then
    return "  " .. point_text(dsap) .. (ssap and " from " .. ssap or "")
  end
  return "  DSAP " .. dsap .. (ssap and ", SSAP " .. ssap or "") .. purpose_text(dsap)
end

-- Adds the data unit of a telegram. Returns the words about its access points.
local function add_unit(tree, unit, da, sa, fc)
  local readable, dsap, ssap, at = add_points(tree, unit, da, sa, fc)
  if not readable then
    if unit then tree:add(f.data, unit) end
    return "  extension missing or not plain"
  end
  local is_request = is_set(fc, 6)
  local uses_points = not is_request or OF_POINT[bits(fc, 0, 3)]
  local point = dsap
  if not is_request then point = ssap end
  local payload = unit and at < unit:len() and unit(at) or nil
  local has_service = uses_points and (is_request or payload ~= nil)
  if has_service then
    tree:add(f.service, service_name(point)):set_generated()
  end
  if payload == nil then
    return access_text(fc, dsap, ssap)
  end
  if not uses_points then
    tree:add(f.data, payload)
  elseif is_request then
    add_request_data(tree, point, payload)
  else
    add_response_data(tree, point, payload)
  end
  return access_text(fc, dsap, ssap)
end

-- ---- what is wrong with octets

-- The number of octets of a frame with this start delimiter; that of SD2 is in its head.
local SIZES = { [0x10] = 6, [0xA2] = 14, [0xDC] = 3, [0xE5] = 1 }

local function check_sequence(tvb, first, last)
  local sum = 0
  for at = first, last do
    sum = (sum + tvb(at, 1):uint()) % 256
  end
  return sum
end

-- Returns what is wrong with the head of an SD2 telegram; nil if it is right.
local function head_fault(tvb)
  local length, again, start = tvb(1, 1):uint(), tvb(2, 1):uint(), tvb(3, 1):uint()
  if length ~= again then
    return string.format("BadHead, the length octets are %02x and %02x", length, again)
  end
  if start ~= 0x68 then
    return string.format("BadHead, the second start delimiter is %02x, not 68", start)
  end
  if length < 4 or length > 249 then
    return string.format("BadHead, the length is %d, of 4 to 249", length)
  end
  return nil
end

-- Returns what is wrong with the end of a telegram whose DA is at `at` and that has this size; nil if it is right.
local function end_fault(tvb, at, size)
  local found, right = tvb(size - 2, 1):uint(), check_sequence(tvb, at, size - 3)
  if found ~= right then
    return string.format("BadEnd, the check sequence is %02x, not %02x", found, right)
  end
  if tvb(size - 1, 1):uint() ~= 0x16 then
    return string.format("BadEnd, the end delimiter is %02x, not 16", tvb(size - 1, 1):uint())
  end
  return nil
end

-- Returns the size of the frame at the front of the octets, and where its DA is; or nil and what is wrong with them.
local function frame_size(tvb)
  local start = tvb(0, 1):uint()
  if not START_NAMES[start] then
    return nil, "NoStart, the first octet is no start delimiter"
  end
  if start ~= 0x68 then
    return SIZES[start], 1
  end
  if tvb:len() < 4 then
    return nil, "Short, the frame is not whole"
  end
  local fault = head_fault(tvb)
  if fault then
    return nil, fault
  end
  return tvb(1, 1):uint() + 6, 4
end

-- ---- frames

local function add_address(tree, field, extension, range)
  tree:add(field, range)
  tree:add(extension, range)
end

-- Adds the check sequence over the octets from `first` to `last`, and the end delimiter.
local function add_end(tree, tvb, first, last)
  local sum = check_sequence(tvb, first, last)
  local range = tvb(last + 1, 1)
  local is_right = range:uint() == sum
  local item = tree:add(f.fcs, range)
  item:add(f.fcs_good, range, is_right):set_generated()
  if not is_right then
    item:add(f.fcs_expected, range, sum):set_generated()
    item:add_proto_expert_info(bad_fcs)
  end
  tree:add(f.ed, tvb(last + 2, 1))
end

-- Adds a telegram of this size whose DA is at `at`. Returns its words.
local function add_telegram(tree, pinfo, tvb, at, size)
  local da, sa, fc = tvb(at, 1):uint(), tvb(at + 1, 1):uint(), tvb(at + 2, 1):uint()
  add_address(tree, f.da, f.da_extension, tvb(at, 1))
  add_address(tree, f.sa, f.sa_extension, tvb(at + 1, 1))
  add_function_code(tree, tvb(at + 2, 1))
  local unit = size - at > 5 and tvb(at + 3, size - at - 5) or nil
  local access = add_unit(tree, unit, da, sa, fc)
  add_end(tree, tvb, at, size - 3)
  pinfo.cols.src = tostring(bits(sa, 0, 6))
  pinfo.cols.dst = tostring(bits(da, 0, 6))
  return START_NAMES[tvb(0, 1):uint()] .. " " .. function_text(fc) .. access
end

-- Adds a token. Returns its words.
local function add_token(tree, pinfo, tvb)
  local da, sa = bits(tvb(1, 1):uint(), 0, 6), bits(tvb(2, 1):uint(), 0, 6)
  add_address(tree, f.da, f.da_extension, tvb(1, 1))
  add_address(tree, f.sa, f.sa_extension, tvb(2, 1))
  pinfo.cols.src = tostring(sa)
  pinfo.cols.dst = tostring(da)
  local alone = da == sa and ", alone in the ring" or ""
  return string.format("SD4 token to %d from %d%s", da, sa, alone)
end

-- Shows octets that are no telegram.
local function add_octets(tree, pinfo, tvb, fault)
  tree:add(f.data, tvb())
  tree:add_proto_expert_info(no_telegram, "no telegram: " .. fault)
  pinfo.cols.info = "no telegram: " .. fault
end

-- Adds a telegram of this size, whose end may be wrong, or longer than it is.
local function add_checked(tree, pinfo, tvb, at, size)
  local words = add_telegram(tree, pinfo, tvb, at, size)
  local fault = end_fault(tvb, at, size) or size < tvb:len() and "Long, octets follow the frame"
  if fault then
    tree:add_proto_expert_info(no_telegram, "no telegram: " .. fault)
    words = "no telegram: " .. fault
  end
  pinfo.cols.info = words
end

local function add_frame(tree, pinfo, tvb)
  local size, at = frame_size(tvb)
  if size == nil then
    return add_octets(tree, pinfo, tvb, at)
  end
  if tvb:len() < size then
    return add_octets(tree, pinfo, tvb, "Short, the frame is not whole")
  end
  local start = tvb(0, 1):uint()
  tree:add(f.start, tvb(0, 1))
  if start == 0x68 then
    tree:add(f.length, tvb(1, 1))
    tree:add(f.length_again, tvb(2, 1))
    tree:add(f.start_again, tvb(3, 1))
  elseif size <= 3 and size < tvb:len() then
    return add_octets(tree, pinfo, tvb, "Long, octets follow the frame")
  end
  if start == 0xE5 then
    pinfo.cols.info = "SC short acknowledgement"
  elseif start == 0xDC then
    pinfo.cols.info = add_token(tree, pinfo, tvb)
  else
    add_checked(tree, pinfo, tvb, at, size)
  end
end

-- ---- events of the operator

-- An event of the operator has no telegram, so its packet has no octets. What it is stands in the comment of the packet:
-- "place 6 operator -> slave 5 inputs 01 02: done.".
local packet_comment = Field.new("frame.comment")

-- Returns the comment of the packet without the place in front.
local function comment_text()
  local comment = packet_comment()
  return comment and tostring(comment.value):gsub("^place %d+ ", "") or "no octets, and no comment"
end

-- Shows an event of the operator: in Info what it is, and as destination the address of the slave, or `line`. Another packet
-- without octets is a request that has none.
local function add_event(root, pinfo)
  local text = comment_text()
  local kind, address = text:match("^operator %-> (%a+) (%d*)")
  if kind == nil then
    pinfo.cols.info = "no telegram: " .. text
    return
  end
  root:add(fdl):add(f.event, text)
  pinfo.cols.src = "operator"
  pinfo.cols.dst = kind == "slave" and address or kind
  pinfo.cols.info = text
end

function fdl.dissector(tvb, pinfo, root)
  pinfo.cols.protocol = "FDL"
  if tvb:len() == 0 then
    add_event(root, pinfo)
    return
  end
  local tree = root:add(fdl, tvb())
  add_frame(tree, pinfo, tvb)
end
