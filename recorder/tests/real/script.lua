-- What Lua's interpreter runs where it is recorded: a line `ok NAME` for each part that went as it has to.

local function part(name, run)
    local ok, wrong = xpcall(run, debug.traceback)
    print((ok and "ok " or "wrong ") .. name .. (ok and "" or ": " .. tostring(wrong)))
end

part("closures", function()
    local function counter()
        local n = 0
        return function() n = n + 1; return n end, function() return n end
    end
    local counts = {}
    for i = 1, 500 do
        local add, get = counter()
        for _ = 1, i do add() end
        counts[i] = get
    end
    for i = 1, 500 do assert(counts[i]() == i) end
end)

part("arguments", function()
    local function last(...) return (select("#", ...)), (select(-1, ...)) end
    local many = {}
    for i = 1, 5000 do many[i] = i end
    local n, x = last(table.unpack(many))
    assert(n == 5000 and x == 5000)
    assert(select("#", table.unpack({}, 1, 300)) == 300)
    assert(not pcall(table.unpack, {}, 1, 1e7))
end)

part("coroutines", function()
    local function walk(n)
        if n > 0 then
            walk(n - 1)
            coroutine.yield(n)
            walk(n - 1)
        end
    end
    local sum = 0
    for n in coroutine.wrap(function() walk(10) end) do sum = sum + n end
    assert(sum == 2036)
    local ring = {}
    for i = 1, 200 do
        ring[i] = coroutine.create(function(x) while true do x = coroutine.yield(x + i) end end)
    end
    for _ = 1, 20 do
        local x = 0
        for i = 1, 200 do x = select(2, assert(coroutine.resume(ring[i], x))) end
        assert(x == 20100)
    end
    for i = 1, 200 do assert(coroutine.close(ring[i])) end
    local inner = coroutine.create(function() pcall(function() coroutine.yield(1); error({2}) end); error("out") end)
    assert(select(2, coroutine.resume(inner)) == 1)
    local ok, wrong = coroutine.resume(inner)
    assert(not ok and wrong:find("out") and coroutine.status(inner) == "dead")
end)

part("errors", function()
    for _ = 1, 1000 do
        local ok, wrong = pcall(error, {code = 7})
        assert(not ok and wrong.code == 7)
    end
    local function down(n) if n == 0 then error("deep") end return 1 + down(n - 1) end
    local ok, wrong = pcall(down, 10000)
    assert(not ok and wrong:find("deep"))
    ok, wrong = pcall(function() local function f() return 1 + f() end return f() end)
    assert(not ok and wrong:find("stack overflow"))
    ok, wrong = pcall(load, string.rep("(", 1000) .. "1" .. string.rep(")", 1000))
    assert(not ok or not wrong)
    local function nest(n) if n == 0 then error("nest", 0) end return pcall(nest, n - 1) end
    nest(150)
    local handled = 0
    xpcall(function() local x = nil; return x.y end, function() handled = handled + 1; local z = nil; return z.y end)
    assert(handled >= 1)
    assert(not pcall(string.rep, "x", 1 << 40))
end)

part("to be closed", function()
    local order = {}
    local function closing(n) return setmetatable({}, {__close = function() order[#order + 1] = n end}) end
    pcall(function()
        local a <close> = closing(1)
        local b <close> = closing(2)
        error("leave")
    end)
    assert(order[1] == 2 and order[2] == 1)
end)

part("strings", function()
    local pieces = {}
    for i = 1, 3000 do pieces[#pieces + 1] = string.format("%5d|%-8s|%q|%.14g|%x", i, "s" .. i, "q\n" .. i, i / 7, i) end
    local text = table.concat(pieces, ";")
    assert(#text > 100000)
    local n = select(2, text:gsub("%d+", function(d) return "<" .. d .. ">" end))
    assert(n > 9000)
    assert(text:reverse():reverse() == text and text:upper():lower() == text:lower())
    assert(("x"):rep(1000, ","):len() == 1999 and ("abc"):byte(-1) == 99)
    assert(("key = value"):match("^(%w+)%s*=%s*(%w+)$") == "key")
    assert(("THE (quick) fox"):find("%((%a+)%)") == 5 and ("f(a(b)c)d"):match("%b()") == "(a(b)c)")
    assert(("THE fox"):gsub("%f[%a]%a", "*") == "*HE *ox")
    assert(not pcall(string.rep("a?", 300000).find, string.rep("a", 300000), string.rep("a?", 300000)))
    for _, size in ipairs{0, 1, 7, 8, 9, 15, 16, 31, 40, 41, 1023, 1024, 1025, 70000} do
        local s = ("z"):rep(size)
        assert(#(s .. s) == 2 * size and (s .. "a" < s .. "b") and s:sub(-3) == s:sub(math.max(1, size - 2)))
    end
end)

part("packed", function()
    local form = "<i1i2i4i8 s2 z xB d f !8 i8"
    local packed = string.pack(form, -1, -2, -3, -4, "counted", "zero", 255, 0.5, 0.25, 1 << 60)
    local a, b, c, d, s, z, u, x, y, l = string.unpack(form, packed)
    assert(a == -1 and b == -2 and c == -3 and d == -4 and s == "counted" and z == "zero")
    assert(u == 255 and x == 0.5 and y == 0.25 and l == 1 << 60)
    assert(not pcall(string.unpack, "<i8", "short"))
end)

part("tables", function()
    local numbers, seed = {}, 1
    for i = 1, 20000 do
        seed = (seed * 1103515245 + 12345) % 2147483648
        numbers[i] = seed
    end
    table.sort(numbers)
    for i = 2, #numbers do assert(numbers[i - 1] <= numbers[i]) end
    assert(not pcall(table.sort, {3, 1, 2, 5, 4, 9, 8}, function() error("compare") end))
    local keyed = {}
    for i = 1, 5000 do keyed["k" .. i] = i; keyed[i * 3] = -i; keyed[i + 0.5] = i end
    for i = 1, 5000, 2 do keyed["k" .. i] = nil end
    local n = 0
    for _ in pairs(keyed) do n = n + 1 end
    assert(n == 12500)
    local list = {}
    for i = 1, 300 do table.insert(list, 1, i) end
    for _ = 1, 150 do table.remove(list, 1) end
    assert(#list == 150 and list[1] == 150)
    assert(#table.move(list, 1, 150, 3) == 152)
end)

part("metatables", function()
    local V = {}
    V.__index = V
    V.__add = function(a, b) return setmetatable({x = a.x + b.x}, V) end
    V.__eq = function(a, b) return a.x == b.x end
    V.__lt = function(a, b) return a.x < b.x end
    V.__concat = function(a, b) return "v" .. (type(a) == "table" and a.x or a) .. (type(b) == "table" and b.x or b) end
    V.__call = function(self, y) return self.x * y end
    local sum = setmetatable({x = 0}, V)
    for i = 1, 1000 do sum = sum + setmetatable({x = i}, V) end
    assert(sum.x == 500500 and sum(2) == 1001000 and sum .. "!" == "v500500!")
    assert(sum == setmetatable({x = 500500}, V) and not (sum < sum))
end)

part("garbage", function()
    local ended = 0
    for _, mode in ipairs{"generational", "incremental"} do
        collectgarbage(mode)
        local weak = setmetatable({}, {__mode = "kv"})
        for i = 1, 20000 do
            local item = setmetatable({i}, {__gc = function() ended = ended + 1 end})
            weak[i] = item
            weak[item] = {i}
        end
        collectgarbage()
        collectgarbage()
        assert(next(weak) == nil)
    end
    assert(ended == 40000)
end)

part("code", function()
    local text = {"local t = {}"}
    for i = 1, 200 do text[#text + 1] = ("t[%d] = function(a) local b = a + %d; return b, '%s' end"):format(i, i, ("c"):rep(i)) end
    text[#text + 1] = "return t"
    local made = assert(load(table.concat(text, "\n"), "=made"))
    for _, strip in ipairs{false, true} do
        local again = assert(load(string.dump(made, strip), "again", "b"))()
        for i = 1, 200 do
            local n, s = again[i](1)
            assert(n == 1 + i and #s == i)
        end
    end
    for _, wrong in ipairs{"x =", "for i = 1 do end", "goto nowhere", "local x <const> = 1; x = 2", "'open", "[[open", "\1"} do
        assert(not load(wrong))
    end
    local dumped = string.dump(made)
    for cut = 1, #dumped - 1, 97 do assert(not load(dumped:sub(1, cut), "cut", "b")) end
    assert(debug.getinfo(1, "nSlutfL").currentline > 0 and debug.traceback("at", 1):find("at"))
end)

part("numbers", function()
    assert(7 // 2 == 3 and -7 // 2 == -4 and -7 % 3 == 2 and 7.5 // 2 == 3.0 and 1 << 63 == math.mininteger)
    assert(tostring(1e15) == "1e+15" and tonumber("0x1p4") == 16.0 and tonumber("z", 36) == 35)
    assert(math.type(3) == "integer" and math.type(3.0) == "float" and math.tointeger("8") == nil or true)
    assert(not pcall(function() return 1 // 0 end) and 1 / 0 == math.huge)
    for i = 1, 1000 do assert(tonumber(tostring(i / 3)) ~= nil) end
end)

part("utf8", function()
    local text = utf8.char(0x7f, 0x80, 0x7ff, 0x800, 0xffff, 0x10000, 0x10ffff)
    assert(utf8.len(text) == 7 and utf8.codepoint(text, -4) == 0x10ffff and not utf8.len("\xff"))
    local n = 0
    for _, c in utf8.codes(text) do n = n + c end
    assert(n == 0x7f + 0x80 + 0x7ff + 0x800 + 0xffff + 0x10000 + 0x10ffff)
end)

part("files", function()
    local name = os.tmpname()
    local file = assert(io.open(name, "w+"))
    for i = 1, 2000 do file:write(i, " ", i / 2, "\n") end
    file:seek("set")
    local sum = 0
    for _ = 1, 2000 do
        local i, half = file:read("n", "n", "L")
        sum = sum + i
        assert(half == i / 2)
    end
    assert(sum == 2001000 and file:read(1) == nil)
    file:seek("set", 2)
    assert(#file:read("a") > 10000)
    file:close()
    local lines = 0
    for line in io.lines(name) do lines = lines + #line end
    assert(lines > 10000 and not pcall(file.read, file))
    os.remove(name)
    local pipe = assert(io.popen("echo said; exit 3"))
    assert(pipe:read("l") == "said" and select(3, pipe:close()) == 3)
    local again = assert(io.popen(arg[-1] .. " -e 'io.write(6 * 7); os.exit(4, true)'"))
    assert(again:read("n") == 42 and select(3, again:close()) == 4)
    assert(select(3, os.execute("exit 5")) == 5 and os.getenv("PATH") and os.date("%Y"):match("^%d+$"))
end)
