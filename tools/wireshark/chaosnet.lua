-- Chaosnet over UDP, for Wireshark and tshark: packets as datagrams, also those of CHUDP, and the FILE language of Poltxegun.
--
-- Install: copy this file into Wireshark's folder of personal Lua plugins (Help > About Wireshark > Folders), or give it with
-- `tshark -X lua_script:chaosnet.lua`. No UDP port is registered for it. A datagram that begins with the mark `CH` and a known
-- version is taken for one, and so are then all datagrams between those two sockets. Ports that carry nothing else are named in
-- the preference `chaosnet.ports`, or by `-d udp.port==9001,chaosnet`; there a datagram without the mark is shown too, as a fault.
--
-- A datagram is the mark 43 48, then a version:
--   01 00  and the words of one packet, each high byte first, and nothing more;
--   02 N   and N packets, from 1 to 8, one after the other, and nothing more, at most 2,020 bytes in all;
--   03 00  and a seal around a datagram of version 1 or 2, or around nothing. A seal doesn't encrypt. Its tag isn't checked here.
-- The format of a packet and the FILE language are told in docs/PROTOCOL.md and docs/FILE.md. The faults are those of `chaosd show`.
--
-- CHUDP is the framing of cbridge and other Chaosnet programs:
--   01 01 and two bytes that are ignored, the words of one packet, and a trailer of three words: next hop, last hop, checksum.
-- It is recognized at UDP port 42042, and by 01 01 00 00 in front of 22 bytes at least, and so are then all datagrams between those
-- two sockets. Other ports are named in the preference `chaosnet.chudp_ports`, or by `-d udp.port==9001,chaosnet.chudp`. The faults
-- are those of `chaosd show --chudp`.

local chaosnet = Proto("chaosnet", "Chaosnet")
local file = Proto("chaosnet.file", "Chaosnet FILE")
local seal = Proto("chaosnet.seal", "Chaosnet Seal")
local chudp = Proto("chaosnet.chudp", "CHUDP")

local HEADER_WORDS, DATA_LIMIT = 8, 488
local FRONT, GREATEST = 4, 2020
local SEAL_HEAD, SEAL_TAG = 32, 16
local SEAL_LEAST = SEAL_HEAD + SEAL_TAG
local TRAILER, CHUDP_LEAST, CHUDP_GREATEST, CHUDP_PORT = 6, 26, 2048, "42042"
local HALF_CIRCLE, CIRCLE = 32768, 65536
local MOST_SHOWN, GREATEST_LENGTH = 200, 4294967295

local RFC, OPN, CLS, FWD, STS, LOS, LSN, EOF = 1, 2, 3, 4, 7, 9, 10, 12
local OPCODES = {
  [RFC] = "RFC", [OPN] = "OPN", [CLS] = "CLS", [FWD] = "FWD", [5] = "ANS", [6] = "SNS", [STS] = "STS", [LOS] = "LOS",
  [LSN] = "LSN", [EOF] = "EOF", [13] = "UNC",
}
local DAT, DWD = 128, 192
for op = DAT, DWD - 1 do OPCODES[op] = "DAT" end
for op = DWD, 255 do OPCODES[op] = "DWD" end

local FAULTS = { "Short", "BadMark", "BadVersion", "Packet", "Trailing", "BadNumber", "TooLong", "PacketAt" }
local PACKET_FAULTS = { "Short", "BadCount", "Truncated" }
local SEAL_FAULTS = { "Short", "BadVersion" }
local CHUDP_FAULTS = { "TooLong", "Short", "BadVersion", "BadFunction", "BadSum", "Packet", "Trailing" }
local BAD_SUM = 5

-- Fields.

local f = {
  mark = ProtoField.string("chaosnet.mark", "Mark"),
  version = ProtoField.uint8("chaosnet.version", "Version"),
  zero = ProtoField.uint8("chaosnet.zero", "Zero", base.HEX),
  packets = ProtoField.uint8("chaosnet.packets", "Packets"),
  op = ProtoField.uint8("chaosnet.op", "Opcode", base.OCT, OPCODES),
  free = ProtoField.uint8("chaosnet.free", "Free", base.HEX, nil, nil, "A half word that says nothing"),
  fwd = ProtoField.uint16("chaosnet.fwd", "Forwarding Count", base.DEC, nil, 0xF000),
  count = ProtoField.uint16("chaosnet.count", "Data Bytes", base.DEC, nil, 0x0FFF),
  dst_addr = ProtoField.uint16("chaosnet.dst.addr", "Destination Address", base.OCT),
  dst_index = ProtoField.uint16("chaosnet.dst.index", "Destination Index", base.OCT),
  src_addr = ProtoField.uint16("chaosnet.src.addr", "Source Address", base.OCT),
  src_index = ProtoField.uint16("chaosnet.src.index", "Source Index", base.OCT),
  addr = ProtoField.uint16("chaosnet.addr", "Source or Destination Address", base.OCT),
  index = ProtoField.uint16("chaosnet.index", "Source or Destination Index", base.OCT),
  num = ProtoField.uint16("chaosnet.num", "Number"),
  ack = ProtoField.uint16("chaosnet.ack", "Acknowledgement"),
  receipt = ProtoField.uint16("chaosnet.receipt", "Receipt"),
  window = ProtoField.uint16("chaosnet.window", "Window"),
  data = ProtoField.bytes("chaosnet.data", "Data"),
  contact = ProtoField.string("chaosnet.contact", "Contact"),
  args = ProtoField.string("chaosnet.args", "Arguments"),
  text = ProtoField.string("chaosnet.text", "Text"),
  stream = ProtoField.uint32("chaosnet.stream", "Stream Index"),
  first_in = ProtoField.framenum("chaosnet.analysis.first_in", "Seen First In", base.NONE, frametype.DUP_ACK),
  fault = ProtoField.string("chaosnet.fault", "Refused", base.ASCII, "In the words of `chaosd show`"),
  fault_code = ProtoField.uint8("chaosnet.fault.code", "Fault", base.DEC, FAULTS),
  fault_at = ProtoField.uint8("chaosnet.fault.at", "Packet At Fault", base.DEC, nil, nil, "Counted from 1"),
  fault_packet = ProtoField.uint8("chaosnet.fault.packet", "Fault Of The Packet", base.DEC, PACKET_FAULTS),
}
chaosnet.fields = f

local g = {
  line = ProtoField.string("chaosnet.file.line", "Line", base.ASCII, "As scripts write it: ^ is the byte 8D"),
  tid = ProtoField.string("chaosnet.file.tid", "Transaction"),
  handle = ProtoField.string("chaosnet.file.handle", "Handle"),
  command = ProtoField.string("chaosnet.file.command", "Command"),
  answer = ProtoField.string("chaosnet.file.answer", "Answer"),
  user = ProtoField.string("chaosnet.file.user", "User"),
  mode = ProtoField.string("chaosnet.file.mode", "Mode"),
  path = ProtoField.string("chaosnet.file.path", "Path"),
  path_to = ProtoField.string("chaosnet.file.path.to", "New Path"),
  length = ProtoField.uint32("chaosnet.file.length", "Length"),
  bytes = ProtoField.bytes("chaosnet.file.bytes", "Bytes"),
  error_code = ProtoField.string("chaosnet.file.error.code", "Error Code"),
  error_text = ProtoField.string("chaosnet.file.error.text", "Error Text"),
  reply_in = ProtoField.framenum("chaosnet.file.reply_in", "Reply In", base.NONE, frametype.RESPONSE),
  command_in = ProtoField.framenum("chaosnet.file.command_in", "Command In", base.NONE, frametype.REQUEST),
}
file.fields = g

local s = {
  to = ProtoField.uint16("chaosnet.seal.to", "To", base.OCT),
  from = ProtoField.uint16("chaosnet.seal.from", "From", base.OCT),
  session = ProtoField.uint64("chaosnet.seal.session", "Session", base.DEC, nil, nil, "The sender's session"),
  peer = ProtoField.uint64("chaosnet.seal.peer", "Peer", base.DEC, nil, nil, "The receiver's session as the sender last heard it"),
  counter = ProtoField.uint64("chaosnet.seal.counter", "Counter", base.DEC),
  length = ProtoField.uint16("chaosnet.seal.length", "Payload Bytes", base.DEC, nil, nil, "A seal doesn't encrypt its payload"),
  tag = ProtoField.bytes("chaosnet.seal.tag", "Tag", base.NONE, "16 bytes of HMAC-SHA-256, which aren't checked here"),
  fault_code = ProtoField.uint8("chaosnet.seal.fault.code", "Fault", base.DEC, SEAL_FAULTS),
}
seal.fields = s

local h = {
  version = ProtoField.uint8("chaosnet.chudp.version", "Version"),
  func = ProtoField.uint8("chaosnet.chudp.function", "Function", base.DEC, { "Packet" }),
  args = ProtoField.bytes("chaosnet.chudp.args", "Arguments", base.NONE, "Two bytes that are ignored"),
  to = ProtoField.uint16("chaosnet.chudp.to", "Next Hop", base.OCT),
  from = ProtoField.uint16("chaosnet.chudp.from", "Last Hop", base.OCT),
  sum = ProtoField.uint16("chaosnet.chudp.sum", "Sum", base.HEX, nil, nil, "The Internet checksum of packet, next hop and last hop"),
  sum_status = ProtoField.uint8("chaosnet.chudp.sum.status", "Sum Status", base.DEC, { [0] = "Wrong", [1] = "Right" }),
  fault_code = ProtoField.uint8("chaosnet.chudp.fault.code", "Fault", base.DEC, CHUDP_FAULTS),
}
chudp.fields = h

local e = {
  malformed = ProtoExpert.new("chaosnet.malformed", "Refused", expert.group.MALFORMED, expert.severity.ERROR),
  cut = ProtoExpert.new("chaosnet.cut", "Cut when it was captured", expert.group.UNDECODED, expert.severity.NOTE),
  again = ProtoExpert.new("chaosnet.analysis.retransmission", "Sent again, or repeated by the network",
    expert.group.SEQUENCE, expert.severity.NOTE),
}
chaosnet.experts = e

local g_expert = {
  form = ProtoExpert.new("chaosnet.file.form", "Not of the form of a command or a reply", expert.group.PROTOCOL, expert.severity.WARN),
  error = ProtoExpert.new("chaosnet.file.error", "Answered by an error", expert.group.RESPONSE_CODE, expert.severity.NOTE),
}
file.experts = g_expert

-- Reading: where the packets of a datagram lie, and its fault.

-- The end of the packet that begins at a byte and ends where the datagram does or before, or its fault.
local function packet_end(tvb, at, last)
  local words = math.floor(((last or tvb:len()) - at) / 2)
  if words < HEADER_WORDS then return nil, 1 end
  local count = tvb(at + 2, 2):bitfield(4, 12)
  if count > DATA_LIMIT then return nil, 2 end
  local needed = HEADER_WORDS + math.ceil(count / 2)
  if words < needed then return nil, 3 end
  return at + 2 * needed
end

-- The packets of version 1: a list of none or one, and the fault.
local function read_one(tvb)
  local stop, fault = packet_end(tvb, FRONT)
  if fault then return {}, { code = 4, from = FRONT, packet = fault } end
  return { { from = FRONT, stop = stop } }, stop < tvb:len() and { code = 5, from = stop } or nil
end

-- The packets of version 2 up to the first at fault, and the fault.
local function read_several(tvb)
  local number = tvb(3, 1):uint()
  if number < 1 or number > 8 then return {}, { code = 6, from = 3 } end
  if tvb:len() > GREATEST then return {}, { code = 7, from = 0 } end
  local packets, at = {}, FRONT
  for k = 1, number do
    local stop, fault = packet_end(tvb, at)
    if fault then return packets, { code = 8, from = at, at = k, packet = fault } end
    packets[k] = { from = at, stop = stop }
    at = stop
  end
  return packets, at < tvb:len() and { code = 5, from = at } or nil
end

local function read_datagram(tvb)
  if tvb:len() < FRONT then return {}, { code = 1, from = 0 } end
  if tvb(0, 2):string() ~= "CH" then return {}, { code = 2, from = 0 } end
  if tvb(2, 1):uint() == 2 then return read_several(tvb) end
  if tvb(2, 2):uint() ~= 0x0100 then return {}, { code = 3, from = 2 } end
  return read_one(tvb)
end

-- The Internet checksum of the words of a datagram of CHUDP, without those of its head; 0 where the sum among them is right.
local function checksum(tvb, last)
  local bytes, total = tvb(FRONT, last - FRONT):raw(), 0
  for at = 1, #bytes, 2 do
    total = total + bytes:byte(at) * 256 + bytes:byte(at + 1)
  end
  while total >= CIRCLE do total = total % CIRCLE + math.floor(total / CIRCLE) end
  return CIRCLE - 1 - total
end

-- The packets of a datagram of CHUDP: a list of none or one, and the fault.
local function read_chudp(tvb)
  if tvb:len() > CHUDP_GREATEST then return {}, { code = 1, from = 0 } end
  if tvb:len() < FRONT then return {}, { code = 2, from = 0 } end
  if tvb(0, 1):uint() ~= 1 then return {}, { code = 3, from = 0 } end
  if tvb(1, 1):uint() ~= 1 then return {}, { code = 4, from = 1 } end
  if tvb:len() < CHUDP_LEAST or tvb:len() % 2 == 1 then return {}, { code = 2, from = 0 } end
  local last = tvb:len() - TRAILER
  local stop, wrong = packet_end(tvb, FRONT, last)
  local packets, fault = { stop and { from = FRONT, stop = stop } }, nil
  if wrong then fault = { code = 6, from = FRONT, packet = wrong } end
  if stop and stop < last then fault = { code = 7, from = stop } end
  if checksum(tvb, tvb:len()) ~= 0 then fault = { code = BAD_SUM, from = last + 4 } end
  return packets, fault
end

-- A fault in the words of `chaosd show`.
local function fault_text(fault, names)
  local text = ("fault %d %s"):format(fault.code, names[fault.code])
  if fault.at then text = ("%s %d"):format(text, fault.at) end
  if fault.packet then text = ("%s %d %s"):format(text, fault.packet, PACKET_FAULTS[fault.packet]) end
  return text
end

-- The data bytes in their order: each word has its first byte in the low half.
local function data_in_order(tvb, from, count)
  local bytes = ByteArray.new()
  bytes:set_size(count)
  for n = 0, count - 1 do
    bytes:set_index(n, tvb(from + n + (n % 2 == 0 and 1 or -1), 1):uint())
  end
  return bytes
end

-- Bytes as scripts write them and replies are printed.
local function shown(bytes)
  local text = bytes:gsub("[\0-\31\127-\255^\\]", function(byte)
    return byte == "\141" and "^" or ("\\%02x"):format(byte:byte())
  end)
  return text
end

local function read_packet(tvb, from)
  local function word(n) return tvb(from + 2 * n, 2):uint() end
  local packet = {
    op = tvb(from, 1):uint(),
    count = tvb(from + 2, 2):bitfield(4, 12),
    dst = { addr = word(2), index = word(3) },
    src = { addr = word(4), index = word(5) },
    num = word(6),
    ack = word(7),
  }
  packet.bytes = data_in_order(tvb, from + 2 * HEADER_WORDS, packet.count)
  packet.body = packet.count > 0 and packet.bytes:raw() or ""
  packet.is_data = packet.op >= DAT
  packet.is_item = packet.is_data or packet.op == RFC or packet.op == OPN or packet.op == EOF
  packet.has_status = (packet.op == OPN or packet.op == STS) and packet.count >= 4
  return packet
end

local function name_of(op)
  return OPCODES[op] or ("%03o"):format(op)
end

-- Streams: what goes between two ends, from the request on. They are learned in the first pass, frame by frame.

local streams

local function forget()
  streams = { count = 0, by_request = {}, by_ends = {}, of_frame = {} }
end
forget()
chaosnet.init = forget


local function end_key(one)
  return one.addr * CIRCLE + one.index
end

local function request_key(client, server_addr)
  return ("%d>%d"):format(end_key(client), server_addr)
end

local function ends_key(packet)
  local one, other = end_key(packet.src), end_key(packet.dst)
  return ("%d-%d"):format(math.min(one, other), math.max(one, other))
end

local function new_stream()
  local stream = { index = streams.count, seen = {}, commands = {}, replies = {} }
  streams.count = streams.count + 1
  return stream
end

-- A request begins a stream, and the same request again belongs to it.
local function stream_of_request(packet)
  local key = request_key(packet.src, packet.dst.addr)
  local stream = streams.by_request[key]
  if stream and stream.asked == packet.num then return stream end
  stream = new_stream()
  stream.asked, stream.client = packet.num, end_key(packet.src)
  stream.contact = packet.body:match("^[^ ]*")
  streams.by_request[key] = stream
  return stream
end

-- Another packet belongs to the stream of its two ends; where none has them, to the request that one of them made.
local function stream_of_other(packet)
  local key = ends_key(packet)
  local asked = streams.by_request[request_key(packet.dst, packet.src.addr)] or streams.by_request[request_key(packet.src, packet.dst.addr)]
  if asked and asked.ends and asked.ends ~= key then asked = nil end
  if packet.op == OPN and asked then
    asked.ends, asked.opened = key, asked.opened or packet.num
    streams.by_ends[key] = asked
  end
  local stream = streams.by_ends[key] or asked
  if not stream then
    stream = new_stream()
    streams.by_ends[key] = stream
  end
  return stream
end

-- The frame that had this item of this direction first, where one had. A number is a new item half a circle later.
local function seen_before(stream, packet, frame)
  local seen = stream.seen[end_key(packet.src)] or {}
  stream.seen[end_key(packet.src)] = seen
  local before = seen[packet.num]
  seen[packet.num] = before or frame
  seen[(packet.num + HALF_CIRCLE) % CIRCLE] = nil
  return before
end

local function learn(packet, frame)
  local stream = packet.op == RFC and stream_of_request(packet) or stream_of_other(packet)
  local note = { stream = stream, contact = stream.contact, from_client = stream.client == end_key(packet.src) }
  if packet.is_item then note.first_in = seen_before(stream, packet, frame) end
  local first = note.from_client and stream.asked or stream.opened
  if packet.is_data and first then
    note.place = (packet.num - first) % CIRCLE
    local places = note.from_client and stream.commands or stream.replies
    places[note.place] = places[note.place] or frame
  end
  return note
end

-- What the first pass learned of packet `k` of this frame.
local function note_of(packet, pinfo, k)
  local key = ("%d.%d"):format(pinfo.number, k)
  if not streams.of_frame[key] then streams.of_frame[key] = learn(packet, pinfo.number) end
  return streams.of_frame[key]
end

-- FILE: a command from the end that asked, and a reply from the other.

-- Each word with the form of what follows it, and the fields of the form's parts.
local COMMANDS = {
  LOGIN = { "^ ()([A-Za-z0-9]+)$", g.user },
  OPEN = { "^ ()(%u+)\141()(.*)$", g.mode, g.path },
  READ = { "^$" },
  WRITE = { "^\141()(.*)$", g.bytes },
  CLOSE = { "^$" },
  RENAME = { "^\141()([^\141]*)\141()(.*)$", g.path, g.path_to },
  DELETE = { "^\141()(.*)$", g.path },
}
local ANSWERS = {
  LOGIN = COMMANDS.LOGIN,
  OPEN = { "^ ()(%d+)$", g.length },
  READ = { "^\141()(.*)$", g.bytes },
  EOF = { "^$" },
  WRITE = { "^ ()(%d+)$", g.length },
  CLOSE = { "^ ()(%d+)$", g.length },
  RENAME = { "^$" },
  DELETE = { "^$" },
  ERROR = { "^ ()(%u+) ()(.*)$", g.error_code, g.error_text },
}

local function add_part(tree, field, tvb, from, part)
  if field == g.bytes then
    if #part > 0 then tree:add(field, tvb(from, #part)) end
  elseif field == g.length then
    tree:add(field, tvb(from, #part), math.min(tonumber(part), GREATEST_LENGTH))
  elseif #part > 0 then
    tree:add(field, tvb(from, #part), shown(part))
  end
end

-- The parts of a line behind its word, by the word's form; whether it is of that form.
local function add_parts(tree, form, tvb, from, rest)
  local found = form and { rest:match(form[1]) } or {}
  for n = 2, form and #form or 1 do
    local at, part = found[2 * n - 3], found[2 * n - 2]
    if at then add_part(tree, form[n], tvb, from + at - 1, part) end
  end
  return #found > 0
end

local function add_frames(tree, note)
  local places = note.from_client and note.stream.replies or note.stream.commands
  local other = note.place and places[note.place]
  if other then tree:add(note.from_client and g.reply_in or g.command_in, other):set_generated() end
end

local function dissect_file(packet, note, tvb, root)
  local kind, forms = "Command", COMMANDS
  if not note.from_client then kind, forms = "Reply", ANSWERS end
  local line = shown(packet.body)
  local tree = root:add(file, tvb(), ("Chaosnet FILE, %s: %s"):format(kind, line))
  tree:add(g.line, tvb(), line)
  local tid, handle, at, word, rest = packet.body:match("^([A-Za-z0-9]*) ([A-Za-z0-9]*) ()([^ \141]*)(.*)$")
  local good = false
  if tid then
    add_part(tree, g.tid, tvb, 0, tid)
    add_part(tree, g.handle, tvb, #tid + 1, handle)
    add_part(tree, note.from_client and g.command or g.answer, tvb, at - 1, word)
    good = add_parts(tree, forms[word], tvb, at - 1 + #word, rest)
  end
  if not good then tree:add_proto_expert_info(g_expert.form) end
  if good and word == "ERROR" and not note.from_client then tree:add_proto_expert_info(g_expert.error) end
  add_frames(tree, note)
end

-- Dissecting.

local HEADER = {
  { f.op, 0, 1 }, { f.free, 1, 1 }, { f.fwd, 2, 2 }, { f.count, 2, 2 },
  { f.dst_addr, 4, 2, f.addr }, { f.dst_index, 6, 2, f.index },
  { f.src_addr, 8, 2, f.addr }, { f.src_index, 10, 2, f.index },
  { f.num, 12, 2 }, { f.ack, 14, 2 },
}

-- As many of the header's fields as there are bytes for.
local function add_header(tree, tvb, from)
  for _, row in ipairs(HEADER) do
    local field, at, size, either = row[1], from + row[2], row[3], row[4]
    if at + size > tvb:len() then return end
    tree:add(field, tvb(at, size))
    if either then tree:add(either, tvb(at, size)):set_hidden() end
  end
end

-- A text for the list of packets, which has room for some 4,000 bytes.
local function clipped(text)
  return #text > MOST_SHOWN and text:sub(1, MOST_SHOWN) .. "…" or text
end

-- The data by what the opcode makes of it, and its text for the list of packets.
local function add_data(packet, tree, tvb)
  if packet.has_status then
    tree:add_le(f.receipt, tvb(0, 2))
    tree:add_le(f.window, tvb(2, 2))
    return (" Receipt=%d Window=%d"):format(tvb(0, 2):le_uint(), tvb(2, 2):le_uint())
  end
  tree:add(f.data, tvb())
  if packet.op == RFC or packet.op == LSN then
    local contact, at, args = packet.body:match("^([^ ]*) ?()(.*)$")
    add_part(tree, f.contact, tvb, 0, contact)
    add_part(tree, f.args, tvb, at - 1, args)
  elseif packet.op == CLS or packet.op == LOS or packet.op == FWD then
    tree:add(f.text, tvb(), shown(packet.body))
  end
  return " " .. clipped(shown(packet.body))
end

local function end_text(one)
  return ("%06o:%06o"):format(one.addr, one.index)
end

local function summary_of(packet)
  return (", %s, Src: %s, Dst: %s"):format(name_of(packet.op), end_text(packet.src), end_text(packet.dst))
end

local function info_of(packet)
  local text = ("%s → %s [%s]"):format(end_text(packet.src), end_text(packet.dst), name_of(packet.op))
  if packet.is_item then text = ("%s Num=%d"):format(text, packet.num) end
  if packet.op == OPN or packet.op == STS or packet.op == 6 or packet.op == EOF or packet.is_data then
    text = ("%s Ack=%d"):format(text, packet.ack)
  end
  return text
end

-- A whole packet: its text for the list of packets, and whether it is FILE's. `note` is what is known of its stream, if it was
-- not refused with its datagram.
local function add_packet(packet, note, range, tree, root)
  local tvb, from = range.tvb, range.from
  add_header(tree, tvb, from)
  if note then tree:add(f.stream, note.stream.index):set_generated() end
  local text, is_file = info_of(packet), note and packet.is_data and note.contact == "FILE"
  local data = packet.count > 0 and packet.bytes:tvb("Chaosnet data")
  if data then text = text .. add_data(packet, tree, data) end
  if is_file then dissect_file(packet, note, data or tvb(from, 2 * HEADER_WORDS):tvb(), root) end
  if packet.count % 2 == 1 then tree:add(f.free, tvb(range.stop - 2, 1)) end
  if note and note.first_in then
    tree:add_proto_expert_info(e.again)
    tree:add(f.first_in, note.first_in):set_generated()
    text = "[Again] " .. text
  end
  return text, is_file
end

local function add_front(tree, tvb)
  if tvb:len() < FRONT then return end
  tree:add(f.mark, tvb(0, 2), shown(tvb(0, 2):raw()))
  tree:add(f.version, tvb(2, 1))
  tree:add(tvb(2, 1):uint() == 2 and f.packets or f.zero, tvb(3, 1))
end

local function add_fault(tree, tvb, fault, names, code)
  local text = fault_text(fault, names)
  if fault.packet then add_header(tree, tvb, fault.from) end
  tree:add(f.fault, tvb(), text):set_generated():add_proto_expert_info(e.malformed, text)
  tree:add(code, tvb(), fault.code):set_generated()
  if fault.at then tree:add(f.fault_at, tvb(), fault.at):set_generated() end
  if fault.packet then tree:add(f.fault_packet, tvb(), fault.packet):set_generated() end
  return text
end

-- All packets of a datagram: their texts, and whether one is FILE's.
local function add_packets(packets, fault, tvb, pinfo, tree, root)
  local texts, any_file = {}, false
  for k, range in ipairs(packets) do
    local packet = read_packet(tvb, range.from)
    range.tvb = tvb
    local branch = tree
    if #packets > 1 then branch = tree:add(tvb(range.from, range.stop - range.from), ("Packet %d"):format(k)) end
    branch:append_text(summary_of(packet))
    local text, is_file = add_packet(packet, not fault and note_of(packet, pinfo, k) or nil, range, branch, root)
    texts[k], any_file = text, any_file or is_file
  end
  return texts, any_file
end

-- Whether all of a datagram was kept when it was captured. One that wasn't is said to be cut.
local function is_whole(tvb, pinfo, tree)
  if tvb:len() == tvb:reported_len() then return true end
  tree:add_proto_expert_info(e.cut)
  pinfo.cols.info = "Cut when it was captured"
  return false
end

-- The columns of the list of packets: the packets of a datagram by their texts, behind its fault where it was refused by one.
local function set_columns(pinfo, texts, any_file, refused, front)
  if refused then table.insert(texts, 1, "[Refused: " .. refused .. "]") end
  if any_file then pinfo.cols.protocol = "Chaos FILE" end
  pinfo.cols.info = (front or "") .. table.concat(texts, "; ")
end

-- A datagram of version 1 or 2, behind a text of its seal where it has one.
local function dissect_clear(tvb, pinfo, root, front)
  local tree = root:add(chaosnet, tvb())
  add_front(tree, tvb)
  if not is_whole(tvb, pinfo, tree) then return end
  local packets, fault = read_datagram(tvb)
  local texts, any_file = add_packets(packets, fault, tvb, pinfo, tree, root)
  set_columns(pinfo, texts, any_file, fault and add_fault(tree, tvb, fault, FAULTS, f.fault_code), front)
end

-- Seals.

local function is_sealed(tvb)
  return tvb:len() >= FRONT and tvb(0, 2):raw() == "CH" and tvb(2, 1):uint() == 3
end

local function seal_fault(tvb)
  if tvb:len() < SEAL_LEAST then return { code = 1, from = 0 } end
  if tvb(3, 1):uint() ~= 0 then return { code = 2, from = 3 } end
end

-- What a seal says, and its text for the list of packets.
local function add_seal(tree, tvb)
  local to, from, counter = tvb(4, 2), tvb(6, 2), tvb(24, 8)
  tree:add(s.to, to)
  tree:add(s.from, from)
  tree:add(s.session, tvb(8, 8))
  tree:add(s.peer, tvb(16, 8))
  tree:add(s.counter, counter)
  tree:add(s.length, tvb:len() - SEAL_LEAST):set_generated():append_text(" [not encrypted]")
  tree:add(s.tag, tvb(tvb:len() - SEAL_TAG, SEAL_TAG)):append_text(" [not checked]")
  return ("To: %06o, From: %06o, Counter: %s"):format(to:uint(), from:uint(), tostring(counter:uint64()))
end

-- A sealed datagram, and the datagram in it as any other. An empty one says which session its sender has: it may be a hello.
local function dissect_sealed(tvb, pinfo, root)
  local tree = root:add(chaosnet, tvb())
  add_front(tree, tvb)
  if not is_whole(tvb, pinfo, tree) then return end
  local fault = seal_fault(tvb)
  if fault then return set_columns(pinfo, {}, false, add_fault(tree, tvb, fault, SEAL_FAULTS, s.fault_code)) end
  local text = add_seal(tree:add(seal, tvb()), tvb)
  tree:append_text(", Sealed, " .. text)
  if tvb:len() == SEAL_LEAST then return set_columns(pinfo, { "[Sealed, empty] " .. text }, false) end
  dissect_clear(tvb(SEAL_HEAD, tvb:len() - SEAL_LEAST):tvb(), pinfo, root, "[Sealed] ")
end

function chaosnet.dissector(tvb, pinfo, root)
  pinfo.cols.protocol = "Chaosnet"
  local dissect = is_sealed(tvb) and dissect_sealed or dissect_clear
  dissect(tvb, pinfo, root)
  return tvb:len()
end

-- CHUDP.

local function add_head(tree, tvb)
  if tvb:len() < FRONT then return end
  tree:add(h.version, tvb(0, 1))
  tree:add(h.func, tvb(1, 1))
  tree:add(h.args, tvb(2, 2))
end

-- The hops and the sum, and what the sum should be where it is wrong. A sum of 0 is also written FFFF.
local function add_trailer(tree, tvb)
  local last = tvb:len() - TRAILER
  tree:add(h.to, tvb(last, 2))
  tree:add(h.from, tvb(last + 2, 2))
  local is_right = checksum(tvb, tvb:len()) == 0
  local sum = tree:add(h.sum, tvb(last + 4, 2))
  sum:append_text(is_right and " [right]" or (" [wrong: it should be 0x%04x]"):format(checksum(tvb, last + 4)))
  sum:add(h.sum_status, tvb(last + 4, 2), is_right and 1 or 0):set_generated()
  tree:append_text((", To: %06o, From: %06o"):format(tvb(last, 2):uint(), tvb(last + 2, 2):uint()))
end

function chudp.dissector(tvb, pinfo, root)
  pinfo.cols.protocol = "Chaosnet"
  local tree = root:add(chudp, tvb())
  add_head(tree, tvb)
  if not is_whole(tvb, pinfo, tree) then return tvb:len() end
  local packets, fault = read_chudp(tvb)
  local texts, any_file = {}, false
  if packets[1] then
    local within = root:add(chaosnet, tvb(FRONT, packets[1].stop - FRONT))
    texts, any_file = add_packets(packets, fault, tvb, pinfo, within, root)
  end
  if not fault or fault.code >= BAD_SUM then add_trailer(tree, tvb) end
  set_columns(pinfo, texts, any_file, fault and add_fault(tree, tvb, fault, CHUDP_FAULTS, h.fault_code))
  return tvb:len()
end

-- Where datagrams come from.

local function looks_like_chaosnet(tvb)
  if tvb:len() < FRONT or tvb(0, 2):raw() ~= "CH" then return false end
  local version, zero = tvb(2, 1):uint(), tvb(3, 1):uint() == 0
  return version == 2 or zero and (version == 1 or version == 3 and tvb:reported_len() >= SEAL_LEAST)
end

-- The arguments of a datagram that is recognized by its head are 0, as all known programs write them: a reply of STUN begins by 01 01.
local function looks_like_chudp(tvb)
  return tvb:len() >= CHUDP_LEAST and tvb(0, FRONT):uint() == 0x01010000
end

-- A datagram that looks like one of a protocol is shown as such, and so are then all between those two sockets.
local function recognize(protocol, looks)
  protocol:register_heuristic("udp", function(tvb, pinfo, root)
    if not looks(tvb) then return false end
    protocol.dissector(tvb, pinfo, root)
    pinfo.conversation = protocol
    return true
  end)
end
recognize(chaosnet, looks_like_chaosnet)
recognize(chudp, looks_like_chudp)

local udp_ports = DissectorTable.get("udp.port")
udp_ports:add_for_decode_as(chaosnet)
udp_ports:add_for_decode_as(chudp)

local prefs = chaosnet.prefs
prefs.ports = Pref.range("UDP ports", "", "UDP ports that carry Chaosnet, beside those where it is recognized", 65535)
prefs.chudp_ports = Pref.range("UDP ports of CHUDP", CHUDP_PORT, "UDP ports that carry CHUDP, beside those where it is recognized", 65535)

local ports_now = { [chaosnet] = "", [chudp] = "" }
local function listen(protocol, ports)
  if ports_now[protocol] == ports then return end
  if ports_now[protocol] ~= "" then udp_ports:remove(ports_now[protocol], protocol) end
  ports_now[protocol] = ports
  if ports ~= "" then udp_ports:add(ports, protocol) end
end
listen(chudp, CHUDP_PORT)

function chaosnet.prefs_changed()
  listen(chaosnet, prefs.ports)
  listen(chudp, prefs.chudp_ports)
end
