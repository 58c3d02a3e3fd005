-- Pseudo addresses and control frames of a PortLand fabric, for Wireshark and tshark.
--
--     wireshark -X lua_script:tools/portland.lua out/four-hosts/d.pcap
--     tshark -X lua_script:tools/portland.lua -r out/four-hosts/d.pcap -Y portland.src.pod==1
--
-- A pseudo address has 16 bits of pod, 8 of position, 8 of port and 16 of a number there. Any address whose pod is below 24, whose position is
-- below 12 and whose port is below 24 is read as one, since a capture does not say which are. Control frames have type 0x88b5.

local portland = Proto("portland", "PortLand pseudo addresses")
local control = Proto("portland_control", "PortLand control frame")

local fields = {}
for _, side in ipairs({ "dst", "src" }) do
    local name = side == "dst" and "Destination" or "Source"
    fields[side] = {
        pod = ProtoField.uint16("portland." .. side .. ".pod", name .. " pod"),
        position = ProtoField.uint8("portland." .. side .. ".position", name .. " position"),
        port = ProtoField.uint8("portland." .. side .. ".port", name .. " port"),
        number = ProtoField.uint16("portland." .. side .. ".number", name .. " number"),
    }
end
portland.fields = {
    fields.dst.pod, fields.dst.position, fields.dst.port, fields.dst.number,
    fields.src.pod, fields.src.position, fields.src.port, fields.src.number,
}

local destination, source = Field.new("eth.dst"), Field.new("eth.src")

-- The parts of a pseudo address; nothing of another one.
local function parts(range)
    local pod, position, port, number = range(0, 2):uint(), range(2, 1):uint(), range(3, 1):uint(), range(4, 2):uint()
    if pod < 24 and position < 12 and port < 24 and number > 0 then
        return pod, position, port, number
    end
end

local function add_address(tree, side, range)
    local pod, position, port, number = parts(range)
    if pod then
        local text = string.format("%s: pod %d, position %d, port %d, number %d", side == "dst" and "Destination" or "Source", pod, position, port, number)
        local below = tree:add(portland, range, text)
        below:add(fields[side].pod, range(0, 2))
        below:add(fields[side].position, range(2, 1))
        below:add(fields[side].port, range(3, 1))
        below:add(fields[side].number, range(4, 2))
    end
end

function portland.dissector(buffer, _, tree)
    if destination() and source() and buffer:len() >= 14 then
        add_address(tree, "dst", buffer(0, 6))
        add_address(tree, "src", buffer(6, 6))
    end
end

register_postdissector(portland)

-- Control frames: what a switch tells of its place, asks a position by, and answers.

local kinds = { [1] = "place", [2] = "proposal", [3] = "vote" }
local levels = { [0] = "edge", [1] = "aggregation", [2] = "core", [255] = "unknown" }
local directions = { [0] = "unknown", [1] = "up", [2] = "down" }

local said = {
    version = ProtoField.uint8("portland_control.version", "Version"),
    kind = ProtoField.uint8("portland_control.kind", "Kind", base.DEC, kinds),
    sender = ProtoField.uint64("portland_control.sender", "Sender's id"),
    level = ProtoField.uint8("portland_control.level", "Level", base.DEC, levels),
    position = ProtoField.uint8("portland_control.position", "Position"),
    pod = ProtoField.uint16("portland_control.pod", "Pod"),
    direction = ProtoField.uint8("portland_control.direction", "The receiver lies", base.DEC, directions),
    echo = ProtoField.uint64("portland_control.echo", "Heard last at this port"),
    attempt = ProtoField.uint32("portland_control.attempt", "Attempt"),
    granted = ProtoField.uint8("portland_control.granted", "Granted"),
    holder = ProtoField.uint64("portland_control.holder", "Held for"),
    fixed = ProtoField.uint8("portland_control.fixed", "For good"),
}
control.fields = {
    said.version, said.kind, said.sender, said.level, said.position, said.pod, said.direction, said.echo, said.attempt, said.granted, said.holder, said.fixed,
}

local lengths = { 19, 13, 21 }
local forms = {
    { { "level", 8, 1 }, { "position", 9, 1 }, { "pod", 10, 2 }, { "direction", 12, 1 }, { "echo", 13, 6 } },
    { { "attempt", 8, 4 }, { "position", 12, 1 } },
    { { "attempt", 8, 4 }, { "position", 12, 1 }, { "granted", 13, 1 }, { "holder", 14, 6 }, { "fixed", 20, 1 } },
}

function control.dissector(buffer, packet, tree)
    local below = tree:add(control, buffer())
    packet.cols.protocol = "PortLand"
    local kind = buffer:len() >= 2 and buffer(1, 1):uint() or 0
    if buffer:len() < 2 or buffer(0, 1):uint() ~= 1 or not forms[kind] or buffer:len() < lengths[kind] then
        packet.cols.info = "a control frame that cannot be read"
        return
    end
    below:add(said.version, buffer(0, 1))
    below:add(said.kind, buffer(1, 1))
    below:add(said.sender, buffer(2, 6))
    for _, form in ipairs(forms[kind]) do
        below:add(said[form[1]], buffer(form[2], form[3]))
    end
    packet.cols.info = kinds[kind] .. " of switch " .. tostring(buffer(2, 6):uint64())
end

DissectorTable.get("ethertype"):add(0x88b5, control)
