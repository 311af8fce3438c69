-- Binary Synchronous Communications (BSC) in EBCDIC over TCP, as rje speaks it, for Wireshark and tshark. docs/LINE.md has the form.
--
--     tshark -X lua_script:bsc.lua -r capture.pcap
--     tshark -X lua_script:bsc.lua -i lo -f 'tcp port 3780' -O bsc
--
-- TCP port 3780 is read so; another one by "Decode As" or -d tcp.port==PORT,bsc. For the connection of a line adapter (--adapter) set the preference
-- "adapter", or -o bsc.adapter:TRUE.

local bsc = Proto("bsc", "Binary Synchronous Communications")

bsc.prefs.adapter = Pref.bool("Line adapter", false, "The connection is that of a line adapter, which keeps SYN, pads and checks to itself")

local fields = {
    kind = ProtoField.string("bsc.kind", "Transmission"),
    text = ProtoField.string("bsc.text", "Text"),
    length = ProtoField.uint16("bsc.length", "Bytes of text", base.DEC),
    check = ProtoField.bytes("bsc.check", "Check", base.SPACE),
    is_right = ProtoField.bool("bsc.check.right", "The check is right"),
    ends_job = ProtoField.bool("bsc.etx", "Ends its job (ETX)"),
    transparent = ProtoField.bool("bsc.transparent", "Transparent text"),
    rest = ProtoField.bytes("bsc.noise", "No transmission", base.SPACE),
}
bsc.fields = fields

local spoiled = ProtoExpert.new("bsc.check.wrong", "The check is wrong", expert.group.CHECKSUM, expert.severity.ERROR)
local noise = ProtoExpert.new("bsc.noise.bytes", "Bytes that are no transmission", expert.group.MALFORMED, expert.severity.WARN)
bsc.experts = { spoiled, noise }

local PAD, OTHER_PAD, SYN, DLE, STX = 0xFF, 0x55, 0x32, 0x10, 0x02
local ENQ, ETB, ETX, NAK, EOT = 0x2D, 0x26, 0x03, 0x3D, 0x37
local ONE = { [ENQ] = "ENQ", [NAK] = "NAK", [EOT] = "EOT" }
local TWO = { [0x70] = "ACK0", [0x61] = "ACK1", [0x6B] = "WACK", [0x7C] = "RVI", [EOT] = "EOT" }
-- What controls the line, and so is no byte of normal text.
local CONTROL = { [0x01] = true, [0x02] = true, [0x10] = true, [0x1F] = true, [EOT] = true, [NAK] = true }

-- The check (CRC-16) with one byte more.
local function checked(check, byte)
    check = bit.bxor(check, byte)
    for _ = 1, 8 do
        local low = bit.band(check, 1)
        check = bit.rshift(check, 1)
        if low == 1 then
            check = bit.bxor(check, 0xA001)
        end
    end
    return check
end

-- One byte of normal text at this place: "data", "fill" or "end", its value, and the bytes that it takes; nil where more have to come.
local function normal_at(tvb, at)
    if at >= tvb:len() then return nil end
    local byte = tvb(at, 1):uint()
    if byte == SYN then return "fill", byte, 1 end
    if byte == ETB or byte == ETX or byte == ENQ then return "end", byte, 1 end
    if CONTROL[byte] then return "bad", byte, 1 end
    return "data", byte, 1
end

-- The same of transparent text.
local function transparent_at(tvb, at)
    if at >= tvb:len() then return nil end
    local byte = tvb(at, 1):uint()
    if byte ~= DLE then return "data", byte, 1 end
    if at + 1 >= tvb:len() then return nil end
    local after = tvb(at + 1, 1):uint()
    if after == DLE then return "data", DLE, 2 end
    if after == SYN then return "fill", after, 2 end
    if after == ETB or after == ETX or after == ENQ then return "end", after, 2 end
    return "bad", after, 2
end

-- The text that begins at this place, behind STX: a table, or nil where more has to come.
local function text_at(tvb, begin, transparent)
    local read = transparent and transparent_at or normal_at
    local at, check, data = begin, 0, ByteArray.new()
    while true do
        local what, byte, taken = read(tvb, at)
        if not what then return nil end
        at = at + taken
        if what == "data" then
            data:append(ByteArray.new(string.format("%02X", byte)))
            check = checked(check, byte)
        elseif what == "bad" then
            return { kind = "noise", after = tvb:len() }
        elseif what == "end" then
            if byte == ENQ then
                local empty = data:len() == 0 and not transparent
                return { kind = empty and "TTD" or "ABORT", after = at, data = data }
            end
            check = checked(check, byte)
            local found = { kind = "TEXT", data = data, ends_job = byte == ETX, transparent = transparent, after = at }
            if not bsc.prefs.adapter then
                if at + 2 > tvb:len() then return nil end
                found.check_at, found.after = at, at + 2
                found.is_right = tvb(at, 2):le_uint() == check
            end
            return found
        end
    end
end

-- The body that begins at this place: a table, or nil where more has to come.
local function body_at(tvb, at)
    if at >= tvb:len() then return nil end
    local byte = tvb(at, 1):uint()
    if ONE[byte] then return { kind = ONE[byte], after = at + 1 } end
    if byte == STX then return text_at(tvb, at + 1, false) end
    if byte == DLE then
        if at + 1 >= tvb:len() then return nil end
        local after = tvb(at + 1, 1):uint()
        if TWO[after] then return { kind = TWO[after], after = at + 2 } end
        if after == STX then return text_at(tvb, at + 2, true) end
    end
    return { kind = "noise", after = tvb:len() }
end

-- The first place at or after this one that has none of these bytes.
local function after_all(tvb, at, one, other)
    while at < tvb:len() and (tvb(at, 1):uint() == one or tvb(at, 1):uint() == other) do
        at = at + 1
    end
    return at
end

-- The transmission that begins at this place: a table, or nil where more has to come. Pads alone are one of no kind.
local function transmission_at(tvb, begin)
    local syn = after_all(tvb, begin, PAD, OTHER_PAD)
    if syn == tvb:len() then return { after = syn } end
    local at = after_all(tvb, syn, SYN, SYN)
    if bsc.prefs.adapter then return body_at(tvb, after_all(tvb, at, PAD, SYN)) end
    if at == tvb:len() then return nil end
    if at - syn < 2 then return { kind = "noise", after = tvb:len() } end
    return body_at(tvb, at)
end

-- Shows a transmission, and gives what the list of packets says of it.
local function shown(tvb, begin, found, tree)
    local range = tvb(begin, found.after - begin)
    local item = tree:add(bsc, range)
    if found.kind == "noise" then
        item:add(fields.rest, range):add_proto_expert_info(noise)
        item:append_text(": no transmission")
        return "noise"
    end
    item:add(fields.kind, range, found.kind)
    item:append_text(": " .. found.kind)
    if found.kind ~= "TEXT" then return found.kind end
    local text = found.data:len() == 0 and "" or found.data:tvb("Text"):range():string(ENC_EBCDIC_CP037 or ENC_EBCDIC)
    item:add(fields.text, range, text)
    item:add(fields.length, range, found.data:len())
    item:add(fields.ends_job, range, found.ends_job)
    item:add(fields.transparent, range, found.transparent)
    if found.check_at then
        local check = tvb(found.check_at, 2)
        item:add(fields.check, check)
        local is_right = item:add(fields.is_right, check, found.is_right)
        if not found.is_right then is_right:add_proto_expert_info(spoiled) end
    end
    return string.format("%s %d%s", found.ends_job and "ETX" or "ETB", found.data:len(), found.is_right == false and " check wrong" or "")
end

function bsc.dissector(tvb, pinfo, tree)
    pinfo.cols.protocol = "BSC"
    local at, said = 0, {}
    while at < tvb:len() do
        local found = transmission_at(tvb, at)
        if not found then
            pinfo.desegment_offset, pinfo.desegment_len = at, DESEGMENT_ONE_MORE_SEGMENT
            break
        end
        if found.kind then said[#said + 1] = shown(tvb, at, found, tree) end
        at = found.after
    end
    if #said > 0 then pinfo.cols.info = table.concat(said, ", ") end
    return tvb:len()
end

DissectorTable.get("tcp.port"):add(3780, bsc)
