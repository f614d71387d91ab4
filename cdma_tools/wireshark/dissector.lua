-- Takes apart the packets of messages and frames of an IS-95 forward link (docs/FORMATS.md, "Packets").
-- Made by `python3 -m cdma_tools.wireshark.dissector --write` from the tables of messages: change those instead.

local is95 = Proto("is95", "IS-95 CDMA forward link")

local VERSION, HEADER_OCTETS = 1, 26
local CONTENT_NAMES = { "message", "capsule", "frame of rate set 1", "frame of rate set 2" }
local CHANNEL_NAMES = { "sync", "paging", "traffic" }
local CHECK_NAMES = { "good", "bad" }
local MESSAGE, CAPSULE, BAD = 1, 2, 2
local CHECK_WIDTHS = { 30, 30, 16 }

-- The fields of messages: filter name, the standard's name, bits (0: bits as the text N:HEX), and base.
local MESSAGE_FIELDS = {
-- FIELDS
}

-- The messages of each channel by MSG_TYPE, 0 for every other one: title, and parts after the type.
local LAYOUTS = {
-- LAYOUTS
}

local fields = {
    ["is95.version"] = ProtoField.uint8("is95.version", "Version of the header"),
    ["is95.content"] = ProtoField.uint8("is95.content", "Content", base.DEC, CONTENT_NAMES),
    ["is95.channel"] = ProtoField.uint8("is95.channel", "Channel", base.DEC, CHANNEL_NAMES),
    ["is95.check"] = ProtoField.uint8("is95.check", "Check", base.DEC, CHECK_NAMES),
    ["is95.cell.sid"] = ProtoField.uint16("is95.cell.sid", "SID of the cell"),
    ["is95.cell.nid"] = ProtoField.uint16("is95.cell.nid", "NID of the cell"),
    ["is95.cell.pilot_pn"] = ProtoField.uint16("is95.cell.pilot_pn", "PILOT_PN of the cell"),
    ["is95.row"] = ProtoField.uint8("is95.row", "Walsh row"),
    ["is95.time_known"] = ProtoField.bool("is95.time_known", "Time known", 8, nil, 0x01),
    ["is95.cell_known"] = ProtoField.bool("is95.cell_known", "Cell known", 8, nil, 0x02),
    ["is95.chip"] = ProtoField.uint64("is95.chip", "Chip"),
    ["is95.rate"] = ProtoField.uint16("is95.rate", "Rate in bits per second"),
    ["is95.bit_count"] = ProtoField.uint16("is95.bit_count", "Number of bits"),
    ["is95.frame.commands"] = ProtoField.string("is95.frame.commands", "Power control bits"),
    ["is95.frame.bits"] = ProtoField.string("is95.frame.bits", "Information bits"),
    ["is95.capsule.msg_length"] = ProtoField.uint8("is95.capsule.msg_length", "MSG_LENGTH in octets"),
    ["is95.capsule.crc"] = ProtoField.string("is95.capsule.crc", "Check"),
}

local experts = {
    bad = ProtoExpert.new("is95.check.bad", "The check is wrong", expert.group.CHECKSUM, expert.severity.WARN),
    untimed = ProtoExpert.new(
        "is95.time.unknown", "No sync message has given the time: it counts from 1970", expert.group.UNDECODED,
        expert.severity.NOTE
    ),
    version = ProtoExpert.new("is95.version.unknown", "Unknown header", expert.group.UNDECODED, expert.severity.ERROR),
    malformed = ProtoExpert.new(
        "is95.malformed", "Too few or too many bits", expert.group.MALFORMED, expert.severity.ERROR
    ),
}

-- Makes the field of a number of `width` bits, or of bits as text.
local function made_field(name, title, width, form)
    if width == 0 then
        return ProtoField.string(name, title)
    elseif width <= 8 then
        return ProtoField.uint8(name, title, form)
    elseif width <= 16 then
        return ProtoField.uint16(name, title, form)
    elseif width <= 32 then
        return ProtoField.uint32(name, title, form)
    end
    return ProtoField.uint64(name, title, form)
end

for _, field in ipairs(MESSAGE_FIELDS) do
    fields[field[1]] = made_field(field[1], field[2], field[3], field[4])
end
is95.fields = fields
is95.experts = experts

-- Bits of a packet, taken from the front. Each taken field becomes an item: name, range and value.
local Bits = {}
Bits.__index = Bits

-- Returns the bits from `place` to before `stop`, both counted from the packet's first bit.
function Bits.new(tvb, place, stop)
    return setmetatable({ tvb = tvb, place = place, stop = stop, is_short = false }, Bits)
end

function Bits:left()
    return self.stop - self.place
end

-- Returns the octets in which the next `width` bits are.
function Bits:range(width)
    local first = math.floor(self.place / 8)
    return self.tvb(first, math.ceil((self.place + width) / 8) - first)
end

-- Takes a number, and returns it; 0 if too few bits are left.
function Bits:number(part, items)
    if part.width > self:left() then
        self.is_short = true
        return 0
    end
    local range = self:range(part.width)
    local value = range:bitfield(self.place % 8, part.width)
    self.place = self.place + part.width
    items[#items + 1] = { name = part.name, range = range, value = value }
    return value
end

-- Takes `count` bits as the text N:HEX.
function Bits:text(name, count, items)
    if count > self:left() then
        self.is_short = true
        return
    end
    local text, range = count .. ":", count > 0 and self:range(count) or nil
    for first = 0, count - 1, 8 do
        local width = math.min(8, count - first)
        local octet = self:range(width):bitfield(self.place % 8, width) * 2 ^ (8 - width)
        text = text .. string.format("%02x", octet)
        self.place = self.place + width
    end
    items[#items + 1] = { name = name, range = range, value = text }
end

-- Takes the records that fit; one of several numbers becomes an item of its own, with these as its items.
local function take_records(part, bits, items)
    local width = 0
    for _, column in ipairs(part.columns) do
        width = width + column.width
    end
    local number = 0
    while bits:left() >= width and width > 0 do
        number = number + 1
        local record = items
        if #part.columns > 1 then
            record = {}
            items[#items + 1] = { title = "Record " .. number, range = bits:range(width), items = record }
        end
        for _, column in ipairs(part.columns) do
            bits:number(column, record)
        end
    end
end

-- The reader of each kind of part; one that returns false says that the message is kept as bits.
local READERS = {
    number = function(part, bits, items)
        bits:number(part, items)
    end,
    longer = function(part, bits, items)
        if bits:left() > part.bits then
            bits:number(part, items)
        end
    end,
    switched = function(part, bits, items)
        if bits:number(part, items) == 1 then
            for _, column in ipairs(part.columns) do
                bits:number(column, items)
            end
        end
    end,
    zero = function(part, bits, items)
        return bits:number(part, items) == 0
    end,
    octets = function(part, bits, items)
        bits:text(part.text, 8 * bits:number(part, items), items)
    end,
    records = take_records,
    rest = function(part, bits, items)
        bits:text(part.name, bits:left(), items)
    end,
}

-- Returns the items of a message by a layout, nil if it is kept as bits.
local function items_of(layout, bits)
    local items = {}
    for _, part in ipairs(layout.parts) do
        if READERS[part.kind](part, bits, items) == false then
            return nil
        end
    end
    return items
end

-- Adds items to a tree.
local function show(items, tree)
    for _, item in ipairs(items) do
        if item.items then
            show(item.items, tree:add(item.range, item.title))
        elseif item.range then
            tree:add(fields[item.name], item.range, item.value)
        else
            tree:add(fields[item.name], item.value)
        end
    end
end

-- Shows a message, and returns its title and whether it has too few bits.
local function show_message(channel, bits, tree)
    local head, place = {}, nil
    local kind = bits:number({ name = "is95." .. CHANNEL_NAMES[channel] .. ".msg_type", width = 8 }, head)
    place = bits.place
    local layouts = LAYOUTS[channel]
    local layout = layouts[kind] or layouts[0]
    if not layout then
        return "message of type " .. kind, true
    end
    local items = items_of(layout, bits)
    if not items then
        bits.place, layout = place, layouts[0]
        items = items_of(layout, bits)
    end
    show(head, tree)
    show(items, tree)
    local title = layout.title
    if layout == layouts[0] then
        title = title .. " of type " .. kind
    end
    return title, bits.is_short
end

-- Shows a capsule, and returns the title of its message and whether it has too few or too many bits.
local function show_capsule(channel, bits, tree)
    local length, check, count = {}, {}, bits:left()
    local stop = bits.stop
    local octets = bits:number({ name = "is95.capsule.msg_length", width = 8 }, length)
    show(length, tree)
    if 8 * octets ~= count or count < 8 + CHECK_WIDTHS[channel] then
        return "capsule", true
    end
    bits.stop = stop - CHECK_WIDTHS[channel]
    local title, is_short = show_message(channel, bits, tree)
    bits.place, bits.stop = bits.stop, stop
    bits:text("is95.capsule.crc", CHECK_WIDTHS[channel], check)
    show(check, tree)
    return title, is_short
end

-- Shows a frame, and returns its title.
local function show_frame(tvb, bits, tree)
    local items = {}
    Bits.new(tvb, 8 * 22, 8 * 24):text("is95.frame.commands", 16, items)
    local digits = ""
    for place = 0, 15 do
        digits = digits .. tvb(22, 2):bitfield(place, 1)
    end
    items[1].value = digits
    bits:text("is95.frame.bits", bits:left(), items)
    show(items, tree)
    return "frame of " .. tvb(20, 2):uint() .. " bits per second", bits.is_short
end

-- Shows the header, and returns whether the rest can be taken apart.
local function show_header(tvb, tree)
    if tvb:len() < HEADER_OCTETS then
        tree:add_proto_expert_info(experts.malformed)
        return false
    end
    tree:add(fields["is95.version"], tvb(0, 1))
    local content, channel = tvb(1, 1):uint(), tvb(2, 1):uint()
    if tvb(0, 1):uint() ~= VERSION or not CONTENT_NAMES[content] or not CHANNEL_NAMES[channel] then
        tree:add_proto_expert_info(experts.version)
        return false
    end
    local places = {
        { "content", 1, 1 }, { "channel", 2, 1 }, { "check", 3, 1 }, { "cell.sid", 4, 2 }, { "cell.nid", 6, 2 },
        { "cell.pilot_pn", 8, 2 }, { "row", 10, 1 }, { "time_known", 11, 1 }, { "cell_known", 11, 1 },
        { "chip", 12, 8 }, { "rate", 20, 2 }, { "bit_count", 24, 2 },
    }
    local is_cell_known = tvb(11, 1):bitfield(6, 1) == 1
    for _, place in ipairs(places) do
        if is_cell_known or not place[1]:find("^cell%.") then
            tree:add(fields["is95." .. place[1]], tvb(place[2], place[3]))
        end
    end
    if tvb(3, 1):uint() == BAD then
        tree:add_proto_expert_info(experts.bad)
    end
    if tvb(11, 1):bitfield(7, 1) == 0 then
        tree:add_proto_expert_info(experts.untimed)
    end
    return true
end

-- Fills the columns of the list of packets.
local function fill_columns(tvb, columns, title)
    columns.src = tvb(11, 1):bitfield(6, 1) == 1 and "PN " .. tvb(8, 2):uint() or "unknown cell"
    columns.dst = CHANNEL_NAMES[tvb(2, 1):uint()]
    columns.info = title .. (tvb(3, 1):uint() == BAD and ", bad check" or "")
end

function is95.dissector(tvb, pinfo, root)
    pinfo.cols.protocol = "IS-95"
    local tree = root:add(is95, tvb())
    if not show_header(tvb, tree) then
        pinfo.cols.info = "unknown packet"
        return
    end
    local content, channel, count = tvb(1, 1):uint(), tvb(2, 1):uint(), tvb(24, 2):uint()
    local title, is_malformed = CONTENT_NAMES[content], true
    if count <= 8 * (tvb:len() - HEADER_OCTETS) then
        local bits = Bits.new(tvb, 8 * HEADER_OCTETS, 8 * HEADER_OCTETS + count)
        if content == MESSAGE then
            title, is_malformed = show_message(channel, bits, tree)
        elseif content == CAPSULE then
            title, is_malformed = show_capsule(channel, bits, tree)
        else
            title, is_malformed = show_frame(tvb, bits, tree)
        end
    end
    if is_malformed then
        tree:add_proto_expert_info(experts.malformed)
    end
    fill_columns(tvb, pinfo.cols, title)
end

DissectorTable.get("wtap_encap"):add(wtap.USER0, is95)
