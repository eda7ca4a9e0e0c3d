local lines = {}
local line = readline()
while line do
  lines[#lines + 1] = line
  line = readline()
end
print(#lines, lines[1], lines[#lines])
