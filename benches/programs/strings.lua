local s = ""
for i = 1, 15000 do s = s .. "x" .. i end
print(#s)
local t = {}
for i = 1, 200000 do t["k" .. i % 1000] = i end
print(t.k7)
