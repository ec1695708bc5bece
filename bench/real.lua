-- What bench/real.py has Lua do: prints results of all its libraries, which are compared with those of the program by clang alone.
local function show(...) print(select("#", ...), ...) end

-- numbers
show(7 // 2, -7 // 2, 7 % -3, 7.5 // 2, 2^10, 1 / 3, 10 >> 1, ~5, 3 & 6 | 8, math.maxinteger + 1 == math.mininteger)
for _, it in ipairs { 0.1, 1e15, 1e100, -0.0, 1 / 0, 255, "0x1p4", "0x10", " 12 ", "1e1", "nan" } do show(it, tonumber(it), math.type(tonumber(it))) end
show(math.sin(1), math.exp(1), math.log(10), math.sqrt(2), math.floor(-3.5), math.ceil(3.2), math.fmod(7, 3), math.tointeger(3.0), math.ult(1, -1))
show(string.format("%d|%5.2f|%g|%x|%q|%s|%-5s|%a|%i|%c", 42, 3.14159, 1e20, 255, 'a\n"b"', nil, "x", 0.5, 7, 65))

-- strings
show(("hello world"):gsub("o", "0"), ("key = value"):match("^(%w+)%s*=%s*(%w+)$"), ("a,b,,c"):find(",", 1, true), ("x"):rep(3, "-"))
for word, number in ("one=1, two=2"):gmatch("(%w+)=(%w+)") do show(word, number) end
show(("%bxy"):len(), ("f(a(b)c)d"):match("%b()"), ("THE (quick) fox"):find("%((%a+)%)"), ("abc"):byte(1, -1), ("abc"):reverse():upper())
show(string.pack("<i4>I2zs1d", -2, 513, "z", "abc", 1.5):byte(1, -1))
show(string.unpack("<i4>I2z", string.pack("<i4>I2z", -2, 513, "text")))
show(utf8.char(72, 228, 8364, 128512), utf8.len("Hä€😀"), utf8.codepoint("ä€", 1, -1))

-- tables, closures, metatables
local list = {}
for n = 1, 200 do list[n] = n * 7919 % 211 end
table.sort(list, function(a, b) return a > b end)
show(table.concat(list, " ", 1, 20), #list, table.unpack(list, 198, 200))
table.insert(list, 3, "in") table.remove(list, 1) table.move(list, 1, 3, 5)
show(table.concat(list, ",", 1, 8), next({}), rawlen(list), select(-1, 1, 2, 3))
local Point = {}
Point.__index, Point.__add = Point, function(a, b) return setmetatable({ x = a.x + b.x }, Point) end
Point.__tostring, Point.__call, Point.__len = function(p) return "point " .. p.x end, function(p, y) return p.x * y end, function() return 99 end
Point.__lt, Point.__eq = function(a, b) return a.x < b.x end, function() return true end
Point.__concat, Point.__close = function() return "both" end, function() print("closed") end
local p = setmetatable({ x = 1 }, Point) + setmetatable({ x = 2 }, Point)
show(tostring(p), p(5), #p, p < setmetatable({ x = 4 }, Point), p == setmetatable({}, Point), p .. "text")
do local it <close> = p end
local function counter() local n = 0 return function() n = n + 1 return n end end
local one, two = counter(), counter()
show(one(), one(), two())

-- coroutines, errors, the collector
local words = coroutine.wrap(function(a) for n = 1, 3 do a = coroutine.yield(a + n) end return "end" end)
show(words(1), words(2), words(3), words(4))
show(pcall(error, "told"), select(2, pcall(function() local x return x.y end)), select(2, xpcall(function() return 1 + {} end, debug.traceback)))
show(coroutine.resume(coroutine.create(function() error({}) end)) == false, select(2, load("x = = 1")), load("return ...")(5))
local weak = setmetatable({}, { __mode = "k" })
for n = 1, 1000 do weak[{}] = ("text"):rep(n) end
collectgarbage() collectgarbage("generational") collectgarbage() collectgarbage("incremental")
show(next(weak), collectgarbage("count") < 2000, debug.getinfo(show, "S").short_src, debug.getinfo(1, "l").currentline)
for n = 1, 3 do for m = 1, 3 do if m == 2 then goto on end show(n, m) ::on:: end end

-- deep recursion, code that is dumped and loaded, files
local function ackermann(m, n) if m == 0 then return n + 1 elseif n == 0 then return ackermann(m - 1, 1) end return ackermann(m - 1, ackermann(m, n - 1)) end
show(ackermann(2, 9), pcall(string.rep, "x", -1), select("#", string.byte(("x"):rep(200), 1, -1)))
show(load(string.dump(function(a, b) return a * b, "dumped" end))(6, 7))
local name = os.tmpname()
local file = assert(io.open(name, "w"))
file:write("first\n", 2, " ", 0x10, "\nlast") file:close()
for line in io.lines(name) do show(line) end
file = io.open(name) show(file:seek("end"), file:seek("set", 6), file:read("n", "n", "l", "a")) file:close()
show(os.remove(name), io.open(name), os.time({ year = 2020, month = 1, day = 2, hour = 12 }), os.date("!%Y-%m-%d %H:%M", 86400), os.getenv("NOSUCH"))
