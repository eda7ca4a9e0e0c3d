local s = 0
for i = 1, 20000000 do s = s + i * 3 - i % 7 end
print(s)
