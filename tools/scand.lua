-- Shows the frames of scand in Wireshark and tshark. docs/FORMATS.md describes them.
--
--   tshark -X lua_script:tools/scand.lua -o scand.ports:7000 -r FILE
--   tshark -X lua_script:tools/scand.lua -d tcp.port==7000,scand -i lo -Y 'scand.code'
--
-- scand has no port of its own: name yours in the preference scand.ports, or decode a port as scand.

local LENGTH_LEAST, LENGTH_MOST, HITS_MOST, FLAGS_MOST = 5, 65541, 4096, 3

local KINDS = {
  [0x01] = "Publish", [0x02] = "Open", [0x03] = "Feed", [0x04] = "Close", [0x05] = "ShowPlan",
  [0x11] = "Published", [0x12] = "Opened", [0x13] = "Hits", [0x14] = "Fed", [0x15] = "Closed", [0x16] = "Plan",
  [0x17] = "Refused",
}

-- Code 6 is not answered any more.
local CODES = {
  [2] = "TooManyPatterns", [3] = "LiteralTooLong", [4] = "EmptyLiteral", [5] = "NoLiterals", [6] = "TooManyLiterals",
  [11] = "BadFrame", [12] = "StreamInUse", [13] = "NoSuchStream", [14] = "NoSuchPlan", [15] = "PlanQuota",
  [16] = "StreamQuota", [20] = "StreamTooLong",
}

-- Bit 0: case. Bit 1: how many buckets the plan may have.
local FLAGS = {
  [0] = "case counts, eight buckets", [1] = "ASCII case is ignored, eight buckets",
  [2] = "case counts, sixteen buckets", [3] = "ASCII case is ignored, sixteen buckets",
}

local scand = Proto("scand", "Frames of scand")
local length = ProtoField.uint32("scand.length", "Length", base.DEC)
local kind = ProtoField.uint8("scand.kind", "Kind", base.HEX, KINDS)
local stream = ProtoField.uint32("scand.stream", "Stream", base.DEC)
local plan = ProtoField.uint64("scand.plan", "Plan number", base.DEC)
local flags = ProtoField.uint8("scand.flags", "Flags", base.DEC, FLAGS)
local count = ProtoField.uint16("scand.count", "Count", base.DEC)
local literal_length = ProtoField.uint16("scand.literal.length", "Length of a literal", base.DEC)
local literal = ProtoField.bytes("scand.literal", "Literal")
local piece = ProtoField.bytes("scand.piece", "Piece")
local hit_literal = ProtoField.uint16("scand.hit.literal", "Literal", base.DEC)
local hit_end = ProtoField.uint64("scand.hit.end", "End", base.DEC)
local place = ProtoField.uint64("scand.place", "Place", base.DEC)
local price = ProtoField.uint64("scand.price", "Price", base.DEC)
local runs = ProtoField.uint8("scand.runs", "Runs", base.DEC)
local run_end = ProtoField.uint16("scand.run.end", "Run ends at", base.DEC)
local code = ProtoField.uint8("scand.code", "Code", base.DEC, CODES)
local detail = ProtoField.uint16("scand.detail", "Detail", base.DEC)
local bad = ProtoExpert.new("scand.bad", "No frame of scand", expert.group.MALFORMED, expert.severity.ERROR)
local refused = ProtoExpert.new("scand.refused", "Refused", expert.group.RESPONSE_CODE, expert.severity.WARN)

scand.fields = {
  length, kind, stream, plan, flags, count, literal_length, literal, piece, hit_literal, hit_end, place, price, runs, run_end,
  code, detail,
}
scand.experts = { bad, refused }
scand.prefs.ports = Pref.range("Ports", "", "TCP ports on which scand is served", 65535)

-- Readers of a payload: each adds its fields to the tree, and gives what the list of packets says of it, or nil where the
-- payload is none of its kind.
local readers = {}

local function counted(number, what)
  return string.format(", %d %s%s", number, what, number == 1 and "" or "s")
end

local function empty(payload)
  return payload:len() == 0 and "" or nil
end

readers[0x01] = function(payload, tree)
  if payload:len() < 3 or payload(0, 1):uint() > FLAGS_MOST then return nil end
  local number, at = payload(1, 2):uint(), 3
  tree:add(flags, payload(0, 1))
  tree:add(count, payload(1, 2))
  for _ = 1, number do
    if at + 2 > payload:len() then return nil end
    local size = payload(at, 2):uint()
    if at + 2 + size > payload:len() then return nil end
    tree:add(literal_length, payload(at, 2))
    if size > 0 then tree:add(literal, payload(at + 2, size)) end
    at = at + 2 + size
  end
  return at == payload:len() and counted(number, "literal") or nil
end

readers[0x02] = function(payload, tree)
  if payload:len() ~= 8 then return nil end
  tree:add(plan, payload())
  return " by plan " .. payload():uint64()
end

readers[0x03] = function(payload, tree)
  if payload:len() > 0 then tree:add(piece, payload()) end
  return counted(payload:len(), "byte")
end

readers[0x04], readers[0x05] = empty, empty

readers[0x11] = function(payload, tree)
  if payload:len() ~= 8 then return nil end
  tree:add(plan, payload())
  return " " .. payload():uint64()
end

readers[0x12], readers[0x15] = empty, empty

readers[0x13] = function(payload, tree)
  if payload:len() < 2 then return nil end
  local number = payload(0, 2):uint()
  if number < 1 or number > HITS_MOST or payload:len() ~= 2 + 10 * number then return nil end
  tree:add(count, payload(0, 2))
  for at = 2, payload:len() - 10, 10 do
    local hit = tree:add(payload(at, 10), "Hit")
    hit:add(hit_literal, payload(at, 2))
    hit:add(hit_end, payload(at + 2, 8))
  end
  return counted(number, "hit")
end

readers[0x14] = function(payload, tree)
  if payload:len() ~= 8 then return nil end
  tree:add(place, payload())
  return " up to " .. payload():uint64()
end

readers[0x16] = function(payload, tree)
  if payload:len() < 12 or payload(0, 1):uint() > FLAGS_MOST then return nil end
  if payload:len() ~= 12 + 2 * payload(11, 1):uint() then return nil end
  tree:add(flags, payload(0, 1))
  tree:add(count, payload(1, 2))
  tree:add(price, payload(3, 8))
  tree:add(runs, payload(11, 1))
  for at = 12, payload:len() - 2, 2 do
    tree:add(run_end, payload(at, 2))
  end
  return counted(payload(1, 2):uint(), "literal")
end

readers[0x17] = function(payload, tree)
  if payload:len() ~= 3 then return nil end
  local told = payload(0, 1):uint()
  tree:add(code, payload(0, 1))
  tree:add(detail, payload(1, 2))
  tree:add_proto_expert_info(refused)
  return ": " .. (CODES[told] or told)
end

-- Kinds whose frames have stream 0.
local function needs_no_stream(number)
  return number == 0x01 or number == 0x11
end

-- Whether a kind goes the way of this packet: requests to the port that is decoded, replies from it.
local function fits_way(number, pinfo)
  local is_reply = number >= 0x11
  if pinfo.match_uint == pinfo.dst_port then return not is_reply end
  return pinfo.match_uint ~= pinfo.src_port or is_reply
end

local function say(pinfo, text)
  if pinfo.private["scand"] then
    pinfo.cols.info:append("; " .. text)
  else
    pinfo.cols.info:set(text)
  end
  pinfo.private["scand"] = "1"
end

-- One frame, or what stands where one with a wrong length would.
local function dissect(buffer, pinfo, root)
  local tree = root:add(scand, buffer())
  local size = buffer(0, 4):uint()
  tree:add(length, buffer(0, 4))
  if size < LENGTH_LEAST or size > LENGTH_MOST then
    tree:add_proto_expert_info(bad, "Bad length")
    say(pinfo, "bad length")
    return buffer:len()
  end
  local number, name = buffer(4, 1):uint(), KINDS[buffer(4, 1):uint()]
  tree:add(kind, buffer(4, 1))
  tree:add(stream, buffer(5, 4))
  local said = nil
  if name == nil or not fits_way(number, pinfo) then
    tree:add_proto_expert_info(bad, "Bad kind")
  elseif needs_no_stream(number) and buffer(5, 4):uint() ~= 0 then
    tree:add_proto_expert_info(bad, "Bad stream")
  else
    said = readers[number](buffer(9):tvb(), tree)
    if said == nil then tree:add_proto_expert_info(bad, "Bad payload") end
  end
  local shown = (name or "bad frame") .. (said or " (bad)")
  if not needs_no_stream(number) then shown = shown .. string.format(" [%d]", buffer(5, 4):uint()) end
  tree:append_text(": " .. shown)
  say(pinfo, shown)
  return buffer:len()
end

-- How many bytes the frame at a place has. Behind a wrong length nothing is read.
local function size_at(buffer, _, at)
  local size = buffer(at, 4):uint()
  return (size < LENGTH_LEAST or size > LENGTH_MOST) and buffer:len() - at or 4 + size
end

function scand.dissector(buffer, pinfo, root)
  pinfo.cols.protocol = "scand"
  dissect_tcp_pdus(buffer, root, 4, size_at, dissect)
  return buffer:len()
end

local tcp, served = DissectorTable.get("tcp.port"), ""

function scand.prefs_changed()
  if served ~= scand.prefs.ports then
    if served ~= "" then tcp:remove(served, scand) end
    served = scand.prefs.ports
    if served ~= "" then tcp:add(served, scand) end
  end
end

tcp:add_for_decode_as(scand)
