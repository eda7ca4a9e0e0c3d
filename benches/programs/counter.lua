local function counter()
  local n = 0
  return function() n = n + 1 return n end
end
local c = counter()
local last
for i = 1, 5000000 do last = c() end
print(last)
