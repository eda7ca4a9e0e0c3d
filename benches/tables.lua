-- The same work as the program, for a Lua 5.1 on the machine: times in microseconds.
local NUMBERS, HOLES, TEXTS, INTERNED = 1000000, 1000000, 100000, 1000000
local TAIL = "\021\124\074\127\185\121\055\158"
local clock = os.clock

local function timed(name, work)
  local start = clock()
  local result = work()
  print(string.format("%s %d", name, (clock() - start) * 1000000))
  return result
end

local function walk(t)
  local pairs_walked, key = 0, next(t)
  while key ~= nil do
    pairs_walked = pairs_walked + 1
    key = next(t, key)
  end
  return pairs_walked
end

local numbers = {}
timed("fill numbers", function() for i = 1, NUMBERS do numbers[i] = i end end)
local sum = timed("read numbers", function() local s = 0 for i = 1, NUMBERS do s = s + numbers[i] end return s end)
timed("walk numbers", function() return walk(numbers) end)
timed("open and close", function()
  local s = 0
  for i = 1, HOLES do
    numbers[1] = nil
    s = s + #numbers
    numbers[1] = 1
    s = s + #numbers
  end
  return s
end)
timed("empty numbers", function() for i = NUMBERS, 1, -1 do numbers[i] = nil end end)

local keys, texts = {}, {}
for i = 1, TEXTS do keys[i] = "key " .. (i - 1) end
timed("fill texts", function() for i = 1, TEXTS do texts[keys[i]] = true end end)
timed("read texts", function() local n = 0 for i = 1, TEXTS do if texts[keys[i]] == true then n = n + 1 end end return n end)
timed("walk texts", function() return walk(texts) end)
timed("empty texts", function() for i = 1, TEXTS do texts[keys[i]] = nil end end)

local kept = {}
timed("intern", function() for i = 1, INTERNED do kept[i] = "key " .. (i - 1) end end)
timed("intern again", function() local last for i = 1, INTERNED do last = "key " .. (i - 1) end return last end)
timed("intern alike", function() local last for i = 1, INTERNED do last = "key " .. (i - 1) .. TAIL end return last end)
