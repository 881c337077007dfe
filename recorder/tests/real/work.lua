-- What bench.py measures of Lua's interpreter: objects, strings, closures and a sort. It prints a sum.

local count = tonumber(arg[1])
local state = 1

local function random(most)
    state = (state * 1103515245 + 12345) % 2147483648
    return state % most + 1
end

local function object(n)
    return { number = n, name = "name " .. n, double = function() return 2 * n end }
end

local objects, words, sum = {}, {}, 0
for i = 1, count do
    objects[i] = object(random(count))
end
table.sort(objects, function(a, b) return a.number < b.number end)
for i, it in ipairs(objects) do
    local word = it.name:sub(-2)
    words[word] = (words[word] or 0) + it.double() % i
end
for word, times in pairs(words) do
    sum = sum + times * #word
end
print(sum, #table.concat({ string.rep("word,", count):gsub("(%w+),", "%1;") }))
