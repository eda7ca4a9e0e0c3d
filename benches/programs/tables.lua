local s = 0
for round = 1, 10 do
  local t = {}
  for i = 1, 300000 do t[i] = i end
  for i = 1, #t do s = s + t[i] end
end
print(s)
