-- A tape of what is played in MAME, on Gravitar or Black Widow:
--   TAPE=my.tape mame gravitar -autoboot_script tape.lua -autoboot_delay 0
-- It looks at each byte that the program reads of IN0, IN3 and IN4, and writes a line where one has changed, with the
-- clock of that read. The switches become pots at clock 0. The last line comes when MAME ends. docs/ROMS.md
local HZ = 1512000
local out = assert(io.open(os.getenv("TAPE") or "mame.tape", "w"))
local machine = manager.machine
local space = machine.devices[":maincpu"].spaces["program"]
local byte = {IN0 = 0x3F, IN3 = 0xFF, IN4 = 0xFF}
local last = 0

local function clock()
    -- The program's time, which never goes back.
    last = math.max(last, math.floor(machine.time:as_double() * HZ + 0.5))
    return last
end
-- The switches: a bit of DSW0 is a pot of POKEY 1, one of DSW1 a pot of POKEY 2.
for port, letter in pairs({[":DSW0"] = "P", [":DSW1"] = "Q"}) do
    local switches = machine.ioport.ports[port]
    local value = switches and switches:read() or 0
    for bit = 0, 7 do
        if value >> bit & 1 == 1 then out:write(string.format("0 %s%d FF\n", letter, bit)) end
    end
end
-- The taps have to be kept, or they end.
taps = {}
for name, address in pairs({IN0 = 0x7800, IN3 = 0x8000, IN4 = 0x8800}) do
    taps[name] = space:install_read_tap(address, address, name, function(_, data, _)
        local now = name == "IN0" and data & 0x3F or data & 0xFF
        if now ~= byte[name] then
            byte[name] = now
            out:write(string.format("%d %s %02X\n", clock(), name, now))
            out:flush()
        end
    end)
end
emu.register_stop(function()
    if out then
        out:write(string.format("%d END\n", clock()))
        out:close()
        out = nil
    end
end)
