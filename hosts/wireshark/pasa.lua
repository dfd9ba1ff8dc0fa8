-- A dissector of PASA headers for Wireshark and tshark 4: the page octet F1, the routing octet 100sssss, the type octet 15, the address and
-- the payload. It reads in the specification's order and shows its refusals. docs/WIRESHARK.md says how to install and use it, and
-- hosts/wireshark/check compares every field with what libpasa.a answers.
--
-- Wireshark 4.0 has Lua 5.2, whose numbers do not hold 64 bits. So addresses are UInt64 values, and steps are read off binary digits.

local pasa = Proto("pasa", "PASA routing header")

-- The refusals that a reading gives, by the specification's numbers and in its words.
local DONE, ENDS_EARLY, WRONG_START, WRONG_SIZE, ZERO_ADDRESS, EMPTY = 0, 4, 5, 6, 9, 16
local REFUSALS = {
    [ENDS_EARLY] = "the packet ends too early",
    [WRONG_START] = "one of the first three octets is wrong",
    [WRONG_SIZE] = "a size above 8, or a first octet of zero where there are several",
    [ZERO_ADDRESS] = "an address is zero",
    [EMPTY] = "the payload is empty",
}

-- "octet 0xF1 (page 1, RFC 8025); octet 100sssss, where sssss is the number of address octets less one (house choice); octet 15 as the type"
local PAGE = 0xF1
local CRITICAL = 4
local SIZE_BITS = 0x1F
local TYPE = 15
local START = 3

-- "the fewest octets, 1 to 8"
local LARGEST = 8

-- "a first octet of zero where there are several" is 6, "a single zero octet" 9.
local function zero_fault(size, first)
    if first ~= 0 then
        return DONE
    end
    return size == 1 and ZERO_ADDRESS or WRONG_SIZE
end

local fields = {
    page = ProtoField.uint8("pasa.page", "Page", base.HEX),
    routing = ProtoField.uint8("pasa.routing", "Routing octet", base.HEX),
    form = ProtoField.uint8("pasa.routing.form", "Form", base.DEC, {[CRITICAL] = "critical routing header"}, 0xE0),
    less_one = ProtoField.uint8("pasa.routing.size", "Address octets less one", base.DEC, nil, SIZE_BITS),
    size = ProtoField.uint8("pasa.size", "Size in octets", base.DEC),
    type = ProtoField.uint8("pasa.type", "Type", base.DEC, {[TYPE] = "PASA"}),
    address = ProtoField.uint64("pasa.address", "Address", base.HEX),
    bits = ProtoField.string("pasa.bits", "Binary digits"),
    bit_length = ProtoField.uint8("pasa.bit_length", "Bit length", base.DEC),
    kind = ProtoField.string("pasa.kind", "Kind"),
    depth = ProtoField.uint8("pasa.depth", "Depth", base.DEC),
    parent = ProtoField.uint64("pasa.parent", "Parent", base.HEX),
    parent_bits = ProtoField.string("pasa.parent.bits", "Parent's binary digits"),
    steps = ProtoField.string("pasa.steps", "Steps"),
    step = ProtoField.string("pasa.step", "Step"),
    step_node = ProtoField.uint64("pasa.step.node", "Node", base.HEX),
    place = ProtoField.uint32("pasa.place", "Payload begins at octet", base.DEC),
    refusal = ProtoField.uint8("pasa.refusal", "Refusal", base.DEC, REFUSALS),
    rest = ProtoField.bytes("pasa.rest", "Rest"),
}
pasa.fields = fields

local function refusal_expert(name, number)
    local text = "Refusal " .. number .. ": " .. REFUSALS[number]
    return ProtoExpert.new("pasa." .. name, text, expert.group.MALFORMED, expert.severity.ERROR)
end

-- The names are those of include/pasa.h.
local experts = {
    [ENDS_EARLY] = refusal_expert("ends_early", ENDS_EARLY),
    [WRONG_START] = refusal_expert("wrong_start", WRONG_START),
    [WRONG_SIZE] = refusal_expert("wrong_size", WRONG_SIZE),
    [ZERO_ADDRESS] = refusal_expert("zero_address", ZERO_ADDRESS),
    [EMPTY] = refusal_expert("empty", EMPTY),
}
local cut_expert = ProtoExpert.new("pasa.cut", "The capture ends within the header: no answer", expert.group.UNDECODED, expert.severity.NOTE)
local all_experts = {cut_expert}
for _, one in pairs(experts) do
    all_experts[#all_experts + 1] = one
end
pasa.experts = all_experts

-- What ends a reading where the capture holds less than the packet had: neither an answer nor a refusal can be known.
local CUT = "cut"

-- Whether `count` octets are there: DONE, ENDS_EARLY, or CUT where they were sent and not captured.
local function presence(tvb, count)
    if tvb:reported_len() < count then
        return ENDS_EARLY
    end
    return tvb:len() < count and CUT or DONE
end

local function octet(tvb, place)
    return tvb:range(place, 1):uint()
end

local function page_fault(value)
    return value ~= PAGE
end

local function routing_fault(value)
    return math.floor(value / (SIZE_BITS + 1)) ~= CRITICAL
end

local function type_fault(value)
    return value ~= TYPE
end

local START_FAULTS = {page_fault, routing_fault, type_fault}

-- "the first three octets are checked in order; one that is absent is 4, one that is wrong is 5". Answers how many were looked at, too.
local function read_start(tvb)
    for count, fault in ipairs(START_FAULTS) do
        local present = presence(tvb, count)
        if present ~= DONE then
            return present, count - 1
        end
        if fault(octet(tvb, count - 1)) then
            return WRONG_START, count
        end
    end
    return DONE, START
end

local function read_size(tvb)
    return octet(tvb, 1) % (SIZE_BITS + 1) + 1
end

-- "A packet whose payload is empty is refused with 16". The packet's own length says so, and not the capture's, which may have cut one off.
local function payload_fault(tvb, place)
    return tvb:reported_len() == place and EMPTY or DONE
end

-- "a size above 8" is 6. "Then a missing address octet is 4." Then the zeros, and 16 "after every other header check": the first octet and the
-- packet's length decide, also where the capture has no other octet.
local function read_address(tvb)
    local size = read_size(tvb)
    if size > LARGEST then
        return WRONG_SIZE
    end
    local present = presence(tvb, START + size)
    if present == ENDS_EARLY or presence(tvb, START + 1) ~= DONE then
        return present
    end
    local fault = zero_fault(size, octet(tvb, START))
    if fault == DONE then
        fault = payload_fault(tvb, START + size)
    end
    return fault ~= DONE and fault or present
end

-- The whole reading: its refusal (or DONE, or CUT), and how many of the first three octets were looked at.
local function read_header(tvb)
    local refusal, seen = read_start(tvb)
    if refusal == DONE then
        refusal = read_address(tvb)
    end
    return refusal, seen
end

local function octet_digits(value)
    local digits = {}
    for place = 8, 1, -1 do
        digits[place] = value % 2
        value = math.floor(value / 2)
    end
    return table.concat(digits)
end

-- The address's digits from its first 1 on.
local function address_bits(range)
    local parts = {}
    for place = 0, range:len() - 1 do
        parts[#parts + 1] = octet_digits(range:range(place, 1):uint())
    end
    return (table.concat(parts):gsub("^0+", ""))
end

-- "After the first 1, the string is cut into steps: a run of k ones and then a 0 is 'router child k'. If ones remain at the end, m of them
-- (m at least 1) are 'host child m-1'." Each step has its text and the length of the address that it ends.
local function address_steps(bits)
    local steps = {}
    local last = 1
    while last < #bits do
        local zero = bits:find("0", last + 1, true)
        local stop = zero or #bits
        local ones = stop - last - 1
        steps[#steps + 1] = {text = (zero and "router " or "host ") .. ones, length = stop}
        last = stop
    end
    return steps
end

-- "The root is 1. A router ends in 0. A host ends in 1 and is longer than one bit."
local function address_kind(bits)
    if bits == "1" then
        return "root"
    end
    return bits:sub(-1) == "0" and "router" or "host"
end

-- An ancestor's number is the address's without its last bits. A shift by nothing is left out: the address itself is meant.
local function prefix_number(number, bits, length)
    return length == #bits and number or number:rshift(#bits - length)
end

local function generated(tree, field, range, value, text)
    local item = text and tree:add(field, range, value, text) or tree:add(field, range, value)
    return item:set_generated()
end

local function show_parent(tree, range, number, bits, steps)
    if #steps == 0 then
        return
    end
    local length = #steps > 1 and steps[#steps - 1].length or 1
    local digits = bits:sub(1, length)
    local item = generated(tree, fields.parent, range, prefix_number(number, bits, length), "Parent: " .. digits)
    generated(item, fields.parent_bits, range, digits)
end

local function show_step(tree, range, number, bits, step, index)
    local digits = bits:sub(1, step.length)
    local item = generated(tree, fields.step, range, step.text, "Step " .. index .. ": " .. step.text)
    generated(item, fields.step_node, range, prefix_number(number, bits, step.length), "Node: " .. digits)
end

local function show_steps(tree, range, number, bits, steps)
    if #steps == 0 then
        return
    end
    local texts = {}
    for index, step in ipairs(steps) do
        texts[index] = step.text
    end
    local item = generated(tree, fields.steps, range, table.concat(texts, ", "))
    for index, step in ipairs(steps) do
        show_step(item, range, number, bits, step, index)
    end
end

local function show_address(tree, range)
    local number = range:uint64()
    local bits = address_bits(range)
    local steps = address_steps(bits)
    local item = tree:add(fields.address, range, number, "Address: " .. bits .. " (0x" .. tostring(range:bytes()):lower() .. ")")
    generated(item, fields.bits, range, bits)
    generated(item, fields.bit_length, range, #bits)
    generated(item, fields.kind, range, address_kind(bits))
    generated(item, fields.depth, range, #steps)
    show_parent(item, range, number, bits, steps)
    show_steps(item, range, number, bits, steps)
    return bits, #steps
end

local function show_routing(tree, range)
    local item = tree:add(fields.routing, range)
    item:add(fields.form, range)
    if not routing_fault(range:uint()) then
        item:add(fields.less_one, range)
        generated(item, fields.size, range, range:uint() % (SIZE_BITS + 1) + 1)
    end
    return item
end

-- Shows those of the first three octets that were looked at, and answers the items.
local function show_start(tree, tvb, seen)
    local items = {}
    if seen > 0 then
        items[1] = tree:add(fields.page, tvb:range(0, 1))
    end
    if seen > 1 then
        items[2] = show_routing(tree, tvb:range(1, 1))
    end
    if seen > 2 then
        items[3] = tree:add(fields.type, tvb:range(2, 1))
    end
    return items
end

local function show_rest(tree, tvb, seen)
    if tvb:len() > seen then
        return tree:add(fields.rest, tvb:range(seen))
    end
end

-- The item that a refusal is about: the octet that is wrong; for the rest of them the header.
local function refused_item(tree, items, refusal, seen)
    return refusal == WRONG_START and items[seen] or tree
end

local function show_refusal(tree, tvb, items, refusal, seen)
    generated(tree, fields.refusal, tvb:range(0, 0), refusal)
    refused_item(tree, items, refusal, seen):add_proto_expert_info(experts[refusal])
    show_rest(tree, tvb, seen)
    tree:append_text(", refusal " .. refusal .. ": " .. REFUSALS[refusal])
    return "Refusal " .. refusal .. ": " .. REFUSALS[refusal]
end

local function show_cut(tree, tvb, seen)
    tree:add_proto_expert_info(cut_expert)
    show_rest(tree, tvb, seen)
    return "Header cut by the capture"
end

local function show_accepted(tree, tvb)
    local place = START + read_size(tvb)
    local bits, depth = show_address(tree, tvb:range(START, place - START))
    generated(tree, fields.place, tvb:range(0, 0), place)
    tree:append_text(", to " .. bits)
    tree:set_len(place)
    local payload = tvb:reported_len() - place
    return "To " .. bits .. ", " .. address_kind(bits) .. ", depth " .. depth .. ", payload of " .. payload .. " octets", place
end

local data_dissector = Dissector.get("data")

local function show_payload(root, pinfo, tvb, place)
    if tvb:len() > place then
        data_dissector:call(tvb:range(place):tvb(), pinfo, root)
    end
end

local function dissect(tvb, pinfo, root)
    pinfo.cols.protocol = "PASA"
    local refusal, seen = read_header(tvb)
    local tree = root:add(pasa, tvb:range(0))
    local items = show_start(tree, tvb, seen)
    local info, place
    if refusal == CUT then
        info = show_cut(tree, tvb, seen)
    elseif refusal ~= DONE then
        info = show_refusal(tree, tvb, items, refusal, seen)
    else
        info, place = show_accepted(tree, tvb)
        show_payload(root, pinfo, tvb, place)
    end
    pinfo.cols.info = info
    return tvb:len()
end

pasa.dissector = dissect

-- Where packets come from: a user link type, a choice by 'decode as', or a guess.

local USERS = 16
local FIRST_USER_LINK_TYPE = 147
local FIRST_USER_ENCAPSULATION = (wtap_encaps or wtap).USER0
local NO_USER = USERS

local function user_choices()
    local choices = {}
    for user = 0, USERS - 1 do
        choices[user + 1] = {user + 1, "USER" .. user, user}
    end
    choices[USERS + 1] = {USERS + 1, "none", NO_USER}
    return choices
end

pasa.prefs.link_type = Pref.enum("User link type", 0,
    "The link type of captures whose frames are bare packets: USER0 is DLT " .. FIRST_USER_LINK_TYPE .. ", and so on", user_choices(), false)
pasa.prefs.guess = Pref.bool("Guess in IEEE 802.15.4 frames", false,
    "Take every IEEE 802.15.4 payload that begins with F1, 100xxxxx, 0F for ours. Type 15 is a BIER header to others")

local link_types = DissectorTable.get("wtap_encap")
local taken = {user = NO_USER}

-- Wireshark's own dissector for user link types, which has a table of its own in the preferences, gets back what ours leaves. Both are added
-- and never set: setting would take its other link types from it.
local function take_link_type(user)
    if taken.user ~= NO_USER then
        link_types:add(FIRST_USER_ENCAPSULATION + taken.user, taken.before)
    end
    taken = {user = user}
    if user ~= NO_USER then
        taken.before = link_types:get_dissector(FIRST_USER_ENCAPSULATION + user)
        link_types:add(FIRST_USER_ENCAPSULATION + user, pasa)
    end
end

function pasa.prefs_changed()
    take_link_type(pasa.prefs.link_type)
end

take_link_type(pasa.prefs.link_type)
DissectorTable.get("wpan.panid"):add_for_decode_as(pasa)
DissectorTable.get("udp.port"):add_for_decode_as(pasa)

pasa:register_heuristic("wpan", function(tvb, pinfo, root)
    if not pasa.prefs.guess or tvb:len() < START or read_start(tvb) ~= DONE then
        return false
    end
    dissect(tvb, pinfo, root)
    return true
end)
